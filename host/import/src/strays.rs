//! What a tree of folders says, and what of it is no mailbox: each by its name.

use std::collections::BTreeMap;
use std::fs;
use std::path::Path;

use formats::rows::Flags;
use formats::sha256::{sum_of_bytes, Sum};
use formats::text::line_text;

use crate::error::StoreError;
use crate::found::{Found, Said};
use crate::subscriptions::read_subscriptions;
use crate::told::Told;
use crate::tree::{path_below, Folder};

/// How files start that mail servers and programs keep beside mailboxes.
const CONTROL_FILES: [&str; 17] = [
    "dovecot.index",
    "dovecot.list.index",
    "dovecot.map.index",
    "dovecot.mailbox.log",
    "dovecot.autoexpunge.lock",
    "dovecot-uidvalidity",
    "dovecot-uidlist",
    "dovecot-keywords",
    "dovecot-acl",
    "dovecot-attributes",
    ".dovecot.",
    "courierimap",
    "courierpop3dsizelist",
    "maildirsize",
    "maildirfolder",
    ".mbsyncstate",
    ".uidvalidity",
];

/// What is found while a tree is looked at.
pub struct Look<'o> {
    /// Where the tree lies.
    pub root: &'o Path,
    pub all_found: Vec<Found>,
    pub told: &'o mut Told,
    /// The names that mailboxes of the tree have, as the table has them, and where these are.
    taken: BTreeMap<Vec<u8>, String>,
}

impl<'o> Look<'o> {
    pub fn new(root: &'o Path, told: &'o mut Told) -> Look<'o> {
        Look { root, all_found: Vec::new(), told, taken: BTreeMap::new() }
    }

    /// A mailbox. Of two that would have one name the first is kept.
    pub fn mailbox(&mut self, origin: &str, name: &[u8], delimiter: u8) {
        let said = Said::Exists(Flags::EXISTS);
        let origin = origin.to_string();
        let found = Found { origin, name: name.to_vec(), delimiter: Some(delimiter), said };
        let name = found.translated().unwrap_or_else(|_| name.to_vec());
        match self.taken.get(&name) {
            Some(other) => {
                let reason = format!("{other} has that name already");
                self.told.left_out(&found.origin, &found.name, &reason);
            }
            None => {
                self.taken.insert(name, found.origin.clone());
                self.all_found.push(found);
            }
        }
    }

    /// What of a folder cannot be read, or is neither a file nor a folder.
    pub fn report_odd(&mut self, folder: &Folder) {
        if let Some(error) = &folder.error {
            self.told.not_taken(&folder.origin(), &format!("cannot be read: {error}"));
        }
        for odd in &folder.odd {
            let origin = format!("entry {}", line_text(&folder.path_of(&odd.name)));
            if is_control_file(&odd.name) {
                self.told.note(&origin, &odd.reason);
            } else {
                self.told.not_taken(&origin, &odd.reason);
            }
        }
    }

    /// The files of a folder in which folders are mailboxes, but for those with these names.
    pub fn report_files(&mut self, folder: &Folder, known: &[&str]) {
        for file in &folder.files {
            let is_known = known.iter().any(|name| name.as_bytes() == file.name);
            if !is_known && !is_control_file(&file.name) {
                let origin = format!("file {}", line_text(&folder.path_of(&file.name)));
                self.report_no_mailbox(&origin, file.is_empty);
            }
        }
    }

    /// A folder where no mailbox is, and every folder below it. One with some of these parts is like a
    /// mailbox.
    pub fn report_stray(&mut self, folder: &Folder, parts: &[&str]) {
        let is_part = |inner: &&Folder| parts.iter().any(|part| part.as_bytes() == inner.name());
        self.report_odd(folder);
        if folder.folders.iter().any(|inner| is_part(&inner)) {
            let reason = "like a mailbox, and not where this layout has one; not read";
            self.told.not_taken(&folder.origin(), reason);
        } else if folder.error.is_none() {
            self.report_no_mailbox(&folder.origin(), folder.is_empty());
        }
        for inner in &folder.folders {
            match is_part(&inner) {
                true => self.report_part(inner, parts),
                false => self.report_stray(inner, parts),
            }
        }
    }

    /// A part of a mailbox, in which messages are and no folder.
    pub fn report_part(&mut self, part: &Folder, parts: &[&str]) {
        self.report_odd(part);
        for inner in &part.folders {
            self.report_stray(inner, parts);
        }
    }

    pub fn report_no_mailbox(&mut self, origin: &str, is_empty: bool) {
        if is_empty {
            self.told.note(origin, "no mailbox, and empty");
        } else {
            self.told.not_taken(origin, "no mailbox, and not empty");
        }
    }

    /// Adds the names of a tree's file of subscriptions, if it has one, and gives the file's sum.
    pub fn add_subscriptions(
        &mut self,
        folder: &Folder,
        file: &str,
        delimiter: u8,
    ) -> Result<Option<Sum>, StoreError> {
        if folder.file(file.as_bytes()).is_some() {
            let path = path_below(self.root, file.as_bytes());
            let bytes = fs::read(&path).map_err(StoreError::unreadable(&path))?;
            self.all_found.extend(read_subscriptions(&bytes, file, delimiter));
            return Ok(Some(sum_of_bytes(&bytes)));
        }
        if folder.folder(file.as_bytes()).is_some() {
            let reason = "a folder, where the file of the subscribed names would be";
            self.told.not_taken(file, reason);
        } else if !folder.odd.iter().any(|odd| odd.name == file.as_bytes()) {
            self.told.note(file, "there is no such file, so no name is subscribed");
        }
        Ok(None)
    }

    /// Everything that was found. A tree without a mailbox is none.
    pub fn finished(self) -> Vec<Found> {
        if self.taken.is_empty() {
            self.told.not_taken("the folder itself", "no mailbox is in it or below it");
        }
        self.all_found
    }
}

pub fn is_control_file(name: &[u8]) -> bool {
    CONTROL_FILES.iter().any(|start| name.starts_with(start.as_bytes()))
}
