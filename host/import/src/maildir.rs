//! Trees of folders in which a folder is a mailbox, in the three layouts that Dovecot writes.
//!
//! | Layout | A mailbox A/B | INBOX | Delimiter of `subscriptions` |
//! |---|---|---|---|
//! | Maildir++ | the folder `.A.B`, with `cur`, `new` and `tmp` | the tree's own folder | "." |
//! | LAYOUT=fs | the folder `A/B`, with `cur`, `new` and `tmp` | the folder `INBOX`, or the tree's own | "/" |
//! | dbox | the folder `mailboxes/A/B`, with `dbox-Mails` | the folder `mailboxes/INBOX` | "/" |
//!
//! Every folder of the tree is looked at. One that is no mailbox and not empty is left out by its name,
//! unless mailboxes lie below it where the layout has them: then it is a level.

use std::path::Path;

use formats::name::INBOX;
use formats::sha256::Sum;

use crate::error::StoreError;
use crate::found::Found;
use crate::strays::Look;
use crate::told::Told;
use crate::tree::Folder;

/// The folders of a mailbox in a Maildir.
const MAILDIR_PARTS: &[&str] = &["cur", "new", "tmp"];
/// The folder of a mailbox in dbox, single (sdbox) or multiple (mdbox).
const DBOX_PARTS: &[&str] = &["dbox-Mails"];
const ALL_PARTS: &[&str] = &["cur", "new", "tmp", "dbox-Mails"];
/// Where dbox has its mailboxes.
const DBOX_MAILBOXES: &[u8] = b"mailboxes";
/// Where mdbox has its messages, in files that start so.
const DBOX_STORAGE: &[u8] = b"storage";
const DBOX_STORAGE_FILES: [&[u8]; 2] = [b"m.", b"dovecot.map.index"];

const SUBSCRIPTIONS: &str = "subscriptions";
/// Subscriptions as another server keeps them.
const OTHER_SUBSCRIPTIONS: &str = "courierimapsubscribed";
/// Folders that Courier keeps in each mailbox.
const COURIER_FOLDERS: [&[u8]; 2] = [b"courierimapkeywords", b"courierimaphieracl"];
/// The digits of the identifiers that LAYOUT=index has in place of names.
const GUID_DIGITS: usize = 32;

/// How mailboxes lie in a tree.
#[derive(Clone, Copy, Debug, PartialEq, Eq)]
pub enum Layout {
    MaildirPlusPlus,
    Fs,
    Dbox,
}

/// What a tree says.
pub struct Maildir {
    pub layout: Layout,
    pub all_found: Vec<Found>,
    pub folders_sum: Sum,
    /// Of the file of subscriptions, if there is one.
    pub subscriptions_sum: Option<Sum>,
}

impl Layout {
    fn of(root: &Folder) -> Layout {
        let has_maildir = |folder: &Folder| has_part(folder, MAILDIR_PARTS);
        let has_dbox = |folder: &Folder| has_part(folder, DBOX_PARTS);
        let is_part = |folder: &&Folder| is_part(folder.name(), Layout::Fs);
        let (dotted, plain): (Vec<&Folder>, Vec<&Folder>) = root
            .folders
            .iter()
            .filter(|folder| !is_part(folder))
            .partition(|folder| folder.name().starts_with(b"."));
        let is_nested = |folder: &Folder| has_maildir(folder) || folder.has_below(&has_maildir);
        if root.has_below(&has_dbox) {
            Layout::Dbox
        } else if plain.into_iter().any(is_nested) && !dotted.into_iter().any(has_maildir) {
            Layout::Fs
        } else {
            Layout::MaildirPlusPlus
        }
    }

    /// Between the levels of a name, in folders and in the file of subscriptions.
    fn delimiter(self) -> u8 {
        match self {
            Layout::MaildirPlusPlus => b'.',
            Layout::Fs | Layout::Dbox => b'/',
        }
    }

    fn parts(self) -> &'static [&'static str] {
        match self {
            Layout::MaildirPlusPlus | Layout::Fs => MAILDIR_PARTS,
            Layout::Dbox => DBOX_PARTS,
        }
    }
}

/// Everything that a tree says, in this layout or in the one that its folders show.
pub fn read_maildir(
    root: &Path,
    layout: Option<Layout>,
    told: &mut Told,
) -> Result<Maildir, StoreError> {
    let folder = Folder::read(root, ALL_PARTS).map_err(StoreError::unreadable(root))?;
    let layout = layout.unwrap_or_else(|| Layout::of(&folder));
    let mut tree = Tree { layout, look: Look::new(root, told) };
    tree.look.report_odd(&folder);
    tree.look.report_files(&folder, &[SUBSCRIPTIONS]);
    match layout {
        Layout::MaildirPlusPlus => tree.take_plus_plus(&folder),
        Layout::Fs => tree.take_fs(&folder),
        Layout::Dbox => tree.take_dbox(&folder),
    }
    if folder.file(OTHER_SUBSCRIPTIONS.as_bytes()).is_some() {
        tree.look.told.not_taken(OTHER_SUBSCRIPTIONS, "subscriptions of another form; not read");
    }
    let delimiter = layout.delimiter();
    let subscriptions_sum = tree.look.add_subscriptions(&folder, SUBSCRIPTIONS, delimiter)?;
    let folders_sum = folder.sum_of_folders();
    Ok(Maildir { layout, all_found: tree.look.finished(), folders_sum, subscriptions_sum })
}

struct Tree<'o> {
    layout: Layout,
    look: Look<'o>,
}

impl Tree<'_> {
    fn take_plus_plus(&mut self, root: &Folder) {
        self.take_own(root);
        for folder in self.without_parts(root) {
            match folder.name().strip_prefix(b".") {
                Some(name) => self.take_dotted(folder, name),
                None => self.report_stray(folder),
            }
        }
    }

    /// The tree's own folder, where that is INBOX. One that only holds others is nothing by itself.
    fn take_own(&mut self, root: &Folder) {
        match missing_parts(root, self.layout).as_slice() {
            [] => self.look.mailbox(&root.origin(), INBOX, self.layout.delimiter()),
            missing if missing.len() == self.layout.parts().len() => {
                self.look.told.note(&root.origin(), &missing_text(missing));
            }
            missing => self.look.told.not_taken(&root.origin(), &missing_text(missing)),
        }
        self.report_parts(root);
    }

    /// A folder `.A.B` of Maildir++. Nothing in it is a mailbox.
    fn take_dotted(&mut self, folder: &Folder, name: &[u8]) {
        let origin = folder.origin();
        self.look.report_odd(folder);
        match missing_parts(folder, self.layout).as_slice() {
            [] if name.eq_ignore_ascii_case(INBOX) => {
                self.look.told.left_out(&origin, name, "the folder above it is INBOX");
            }
            [] => {
                self.look.mailbox(&origin, name, self.layout.delimiter());
                self.look.report_files(folder, &[]);
            }
            missing => self.report_missing(folder, missing),
        }
        self.report_parts(folder);
        for inner in self.without_parts(folder) {
            self.report_stray(inner);
        }
    }

    fn take_fs(&mut self, root: &Folder) {
        self.take_own(root);
        for folder in self.without_parts(root) {
            self.take_nested(folder, &folder.path);
        }
    }

    fn take_dbox(&mut self, root: &Folder) {
        let has_mailbox =
            |folder: &&Folder| folder.has_below(&|below| is_mailbox(below, Layout::Dbox));
        let Some(mailboxes) = root.folder(DBOX_MAILBOXES).filter(has_mailbox) else {
            return self.take_fs(root);
        };
        self.look.report_odd(mailboxes);
        self.look.report_files(mailboxes, &[]);
        for folder in &mailboxes.folders {
            let name = &folder.path[DBOX_MAILBOXES.len() + 1..];
            self.take_nested(folder, name);
        }
        for folder in root.folders.iter().filter(|folder| folder.name() != DBOX_MAILBOXES) {
            if !is_storage(folder) {
                self.report_stray(folder);
            }
        }
    }

    /// A folder `A/B`, and those in it. Whether a mailbox is in it or below it.
    fn take_nested(&mut self, folder: &Folder, name: &[u8]) -> bool {
        if is_courier(folder) {
            return false;
        }
        let origin = folder.origin();
        self.look.report_odd(folder);
        let missing = missing_parts(folder, self.layout);
        let is_mailbox = missing.is_empty();
        if is_mailbox && is_guid(folder.name()) {
            let reason =
                "an identifier: LAYOUT=index has the names in dovecot.list.index; not read";
            self.look.told.left_out(&origin, name, reason);
        } else if is_mailbox {
            self.take_named(folder, name);
        }
        self.report_parts(folder);
        let mut has_mailbox = is_mailbox;
        for inner in self.without_parts(folder) {
            let name = [name, b"/", inner.name()].concat();
            has_mailbox |= self.take_nested(inner, &name);
        }
        if has_mailbox {
            self.look.report_files(folder, &[]);
        }
        let is_bare = missing.len() == self.layout.parts().len();
        if is_bare && has_mailbox {
            self.look.told.note(&origin, "a level above mailboxes, and none itself");
        } else if !is_mailbox {
            self.report_missing(folder, &missing);
        }
        has_mailbox
    }

    fn take_named(&mut self, folder: &Folder, name: &[u8]) {
        if folder.name().starts_with(b".") {
            let text = "its name starts with a dot, as in Maildir++; taken as it stands";
            self.look.told.note(&folder.origin(), text);
        }
        self.look.mailbox(&folder.origin(), name, self.layout.delimiter());
    }

    /// A folder where a mailbox would be. One with some of the parts may have been a mailbox.
    fn report_missing(&mut self, folder: &Folder, missing: &[&str]) {
        let origin = folder.origin();
        if missing.len() < self.layout.parts().len() {
            self.look.told.not_taken(&origin, &missing_text(missing));
        } else if folder.error.is_none() {
            self.look.report_no_mailbox(&origin, folder.is_empty());
        }
    }

    /// In the parts of a mailbox are messages alone.
    fn report_parts(&mut self, folder: &Folder) {
        for part in folder.folders.iter().filter(|inner| is_part(inner.name(), self.layout)) {
            self.look.report_part(part, ALL_PARTS);
        }
    }

    fn report_stray(&mut self, folder: &Folder) {
        if !is_courier(folder) {
            self.look.report_stray(folder, ALL_PARTS);
        }
    }

    fn without_parts<'t>(&self, folder: &'t Folder) -> Vec<&'t Folder> {
        let layout = self.layout;
        folder.folders.iter().filter(|inner| !is_part(inner.name(), layout)).collect()
    }
}

fn is_part(name: &[u8], layout: Layout) -> bool {
    layout.parts().iter().any(|part| part.as_bytes() == name)
}

fn has_part(folder: &Folder, parts: &[&str]) -> bool {
    parts.iter().any(|part| folder.folder(part.as_bytes()).is_some())
}

fn is_mailbox(folder: &Folder, layout: Layout) -> bool {
    missing_parts(folder, layout).is_empty()
}

/// Which of the folders of a mailbox are not there.
fn missing_parts(folder: &Folder, layout: Layout) -> Vec<&'static str> {
    let is_missing = |part: &&&str| folder.folder(part.as_bytes()).is_none();
    layout.parts().iter().filter(is_missing).copied().collect()
}

fn missing_text(missing: &[&str]) -> String {
    match missing {
        [one] => format!("no mailbox: {one} is missing"),
        [before @ .., last] => format!("no mailbox: {} and {last} are missing", before.join(", ")),
        [] => "no mailbox".to_string(),
    }
}

fn is_guid(name: &[u8]) -> bool {
    name.len() == GUID_DIGITS && name.iter().all(u8::is_ascii_hexdigit)
}

fn is_courier(folder: &Folder) -> bool {
    COURIER_FOLDERS.contains(&folder.name()) && folder.folders.is_empty() && folder.odd.is_empty()
}

/// Whether a folder has the messages of mdbox, and nothing else.
fn is_storage(folder: &Folder) -> bool {
    let is_own = |name: &[u8]| DBOX_STORAGE_FILES.iter().any(|start| name.starts_with(start));
    let is_plain = folder.folders.is_empty() && folder.odd.is_empty() && folder.error.is_none();
    folder.name() == DBOX_STORAGE && is_plain && folder.files.iter().all(|file| is_own(&file.name))
}
