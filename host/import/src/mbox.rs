//! A tree of mbox files: a file is a mailbox, and a folder is a level.
//!
//! An mbox is empty or starts with `From `. The mailboxes below one lie in a folder beside its file: in a
//! folder of another name, as mail servers have it, or in `NAME.sbd` beside the file `NAME`, as Thunderbird
//! and its relatives have it. Thunderbird's index of `NAME` is `NAME.msf`. Dovecot has the subscribed names
//! in `.subscriptions`, and its indexes in folders `.imap`.

use std::fs;
use std::io::{self, Read};
use std::path::Path;

use formats::name::{DELIMITER, INBOX};
use formats::sha256::Sum;
use formats::text::line_text;

use crate::error::StoreError;
use crate::found::Found;
use crate::strays::{is_control_file, Look};
use crate::told::Told;
use crate::tree::{path_below, File, Folder};

const START: &[u8] = b"From ";
const SUBSCRIPTIONS: &str = ".subscriptions";
const INDEXES: &[u8] = b".imap";
const THUNDERBIRD_FOLDER: &[u8] = b".sbd";
const THUNDERBIRD_INDEX: &[u8] = b".msf";
const LOCK: &[u8] = b".lock";

/// What a tree says.
pub struct Mbox {
    pub all_found: Vec<Found>,
    /// Of the names of all folders and files.
    pub names_sum: Sum,
    /// Of the file of subscriptions, if there is one.
    pub subscriptions_sum: Option<Sum>,
}

/// Everything that a tree says.
pub fn read_mbox(root: &Path, told: &mut Told) -> Result<Mbox, StoreError> {
    let folder = Folder::read(root, &[]).map_err(StoreError::unreadable(root))?;
    let mut tree = Tree { look: Look::new(root, told) };
    tree.take_folder(&folder, b"");
    let is_inbox = |found: &Found| found.name.eq_ignore_ascii_case(INBOX);
    if !tree.look.all_found.iter().any(is_inbox) {
        let text = "no file for INBOX, which mail servers keep elsewhere, as in /var/mail";
        tree.look.told.note("the folder itself", text);
    }
    let subscriptions_sum = tree.look.add_subscriptions(&folder, SUBSCRIPTIONS, DELIMITER)?;
    let names_sum = folder.sum_of_all();
    Ok(Mbox { all_found: tree.look.finished(), names_sum, subscriptions_sum })
}

struct Tree<'o> {
    look: Look<'o>,
}

impl Tree<'_> {
    /// The files and folders of a folder, whose mailboxes have names that start so. Whether there is a
    /// mailbox in it or below it.
    fn take_folder(&mut self, folder: &Folder, start: &[u8]) -> bool {
        self.look.report_odd(folder);
        let before = self.look.all_found.len();
        for file in &folder.files {
            self.take_file(folder, file, &[start, &file.name].concat());
        }
        for inner in &folder.folders {
            self.take_inner(folder, inner, start);
        }
        self.look.all_found.len() > before
    }

    fn take_inner(&mut self, folder: &Folder, inner: &Folder, start: &[u8]) {
        if inner.name() == INDEXES && has_indexes_alone(inner) {
            return;
        }
        if inner.name().starts_with(b".") {
            return self.look.report_stray(inner, &[]);
        }
        let above = inner.name().strip_suffix(THUNDERBIRD_FOLDER);
        let level = above.filter(|above| has_mailbox_file(folder, above)).unwrap_or(inner.name());
        let start = [start, level, &[DELIMITER]].concat();
        if !self.take_folder(inner, &start) && inner.error.is_none() {
            self.look.report_no_mailbox(&inner.origin(), inner.is_empty());
        }
    }

    fn take_file(&mut self, folder: &Folder, file: &File, name: &[u8]) {
        let path = folder.path_of(&file.name);
        let origin = format!("file {}", line_text(&path));
        let is_kept = is_kept_beside(folder, &file.name);
        if file.name.starts_with(b".") {
            if !is_kept {
                let reason = "its name starts with a dot, so it is not taken";
                self.look.told.not_taken(&origin, reason);
            }
            return;
        }
        let is_index = file.name.ends_with(THUNDERBIRD_INDEX);
        match starts_as_mbox(&path_below(self.look.root, &path)) {
            // What has messages is a mailbox, whatever its name.
            Ok(true) if !file.is_empty || !is_kept && !is_index => {
                self.look.mailbox(&origin, name, DELIMITER);
            }
            Ok(_) if is_kept => {}
            Ok(_) => {
                let reason = if is_index {
                    "an index of Thunderbird, and the file of its mailbox is not there"
                } else {
                    "no mailbox: it is not empty and does not start with \"From \""
                };
                self.look.told.not_taken(&origin, reason);
            }
            Err(error) => self.look.told.not_taken(&origin, &format!("cannot be read: {error}")),
        }
    }
}

fn starts_as_mbox(path: &Path) -> io::Result<bool> {
    let mut bytes = Vec::new();
    fs::File::open(path)?.take(START.len() as u64).read_to_end(&mut bytes)?;
    Ok(bytes.is_empty() || bytes == START)
}

/// Whether a file is kept beside mailboxes, by its name.
fn is_kept_beside(folder: &Folder, name: &[u8]) -> bool {
    let has_mailbox =
        |end: &[u8]| name.strip_suffix(end).is_some_and(|mailbox| folder.file(mailbox).is_some());
    let is_subscriptions = folder.path.is_empty() && name == SUBSCRIPTIONS.as_bytes();
    let is_beside = has_mailbox(THUNDERBIRD_INDEX) || has_mailbox(LOCK);
    is_beside || is_subscriptions || is_control_file(name)
}

/// Whether Thunderbird has a mailbox of this name in a folder.
fn has_mailbox_file(folder: &Folder, name: &[u8]) -> bool {
    let index = [name, THUNDERBIRD_INDEX].concat();
    folder.file(name).is_some() || folder.file(&index).is_some()
}

/// Whether nothing but Dovecot's files is in a folder and below it.
fn has_indexes_alone(folder: &Folder) -> bool {
    let is_plain = folder.odd.is_empty() && folder.error.is_none();
    let is_own = |file: &File| is_control_file(&file.name);
    is_plain && folder.files.iter().all(is_own) && folder.folders.iter().all(has_indexes_alone)
}
