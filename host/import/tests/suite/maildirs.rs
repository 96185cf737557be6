//! Maildir++ trees.

use std::ffi::OsStr;
use std::fs;
use std::os::unix::ffi::OsStrExt;
use std::path::{Path, PathBuf};

use import::maildir::{read_maildir, Layout};
use import::subscriptions::read_subscriptions;
use import::{Room, Said, StoreError, Told};

use crate::common::{came, Came};

/// A tree of its own.
pub struct Tree {
    pub root: PathBuf,
}

impl Tree {
    pub fn new(name: &str) -> Tree {
        let root = Path::new(env!("CARGO_TARGET_TMPDIR")).join(name);
        if root.exists() {
            fs::remove_dir_all(&root).expect("a folder that is gone");
        }
        fs::create_dir_all(&root).expect("a folder");
        Tree { root }
    }

    /// Makes a folder with some parts in it.
    pub fn folder(&self, name: &[u8], parts: &[&str]) -> &Tree {
        let folder = self.root.join(OsStr::from_bytes(name));
        fs::create_dir_all(&folder).expect("a folder");
        for part in parts {
            fs::create_dir_all(folder.join(part)).expect("a folder");
        }
        self
    }

    pub fn mailbox(&self, name: &[u8]) -> &Tree {
        self.folder(name, &["cur", "new", "tmp"])
    }

    pub fn file(&self, name: &str, bytes: &[u8]) -> &Tree {
        fs::write(self.root.join(name), bytes).expect("a file");
        self
    }

    /// What comes of it in the layout that it shows.
    pub fn came(&self) -> Came {
        self.came_in(None).1
    }

    pub fn came_in(&self, layout: Option<Layout>) -> (Layout, Came) {
        let mut told = Told::default();
        let maildir = read_maildir(&self.root, layout, &mut told).expect("a tree");
        (maildir.layout, came(&maildir.all_found, told, Room::Program))
    }
}

#[test]
fn a_tree() {
    let tree = Tree::new("a-tree");
    tree.mailbox(b"").mailbox(b".Sent").mailbox(b".Customers.ABC").mailbox(b".Entw&APw-rfe");
    tree.folder(b".Customers", &[]).file("dovecot.index", b"").file("maildirfolder", b"");
    tree.file("subscriptions", b"INBOX\nCustomers.ABC\nGone.Away\n");
    let Came { lines, told } = tree.came();
    assert_eq!(
        lines,
        [
            "mailbox Customers/ABC exists subscribed",
            "# Entw&APw-rfe = \"Entwürfe\"",
            "mailbox Entw&APw-rfe exists",
            "mailbox Gone/Away subscribed",
            "mailbox INBOX exists subscribed",
            "mailbox Sent exists",
        ]
    );
    assert!(told.is_all_taken(), "{:?}", told.all_left_out());
    assert_eq!(told.all_notes(), ["folder .Customers: no mailbox, and empty"]);
}

/// A subscribed folder that is no mailbox has a row of a name that does not exist.
#[test]
fn subscribed_without_a_mailbox() {
    let tree = Tree::new("subscribed");
    tree.mailbox(b"").folder(b".Old", &[]).file("subscriptions", b"Old\n");
    assert_eq!(tree.came().lines, ["mailbox INBOX exists", "mailbox Old subscribed"]);
}

/// What does not fit is told by its folder, and the rest is taken.
#[test]
fn what_is_left_out() {
    let tree = Tree::new("left-out");
    tree.mailbox(b"").mailbox(b".a..b").mailbox(b".caf\xC3\xA9").mailbox(b".\xFF").mailbox(b".50%");
    tree.mailbox(b".inbox").mailbox(b".Inbox.Sent").mailbox(b"Outside").mailbox(b".a/.nested");
    tree.folder(b".half", &["cur", "new"])
        .folder(b"other", &[])
        .file("courierimapsubscribed", b"x");
    tree.file("subscriptions", b"a/b\n");
    let Came { lines, told } = tree.came();
    assert_eq!(lines, ["mailbox INBOX exists", "mailbox INBOX/Sent exists"]);
    assert_eq!(
        told.all_left_out(),
        [
            "folder .a: no mailbox, and not empty",
            "folder .a/.nested: like a mailbox, and not where this layout has one; not read",
            "folder .half: no mailbox: tmp is missing",
            "folder .inbox: inbox: the folder above it is INBOX",
            "folder Outside: like a mailbox, and not where this layout has one; not read",
            "courierimapsubscribed: subscriptions of another form; not read",
            "folder .50%: 50%: name bytes are 20 to 7E (hex), without % and *",
            "folder .a..b: a..b: no level of a name is empty",
            "folder .caf\\xC3\\xA9: \"caf\\xC3\\xA9\": name bytes are 20 to 7E (hex), without % and *",
            "folder .\\xFF: \"\\xFF\": name bytes are 20 to 7E (hex), without % and *",
            "subscriptions, line 1: a/b: it holds \"/\" within a level, and \"/\" parts levels here",
        ]
    );
    assert_eq!(
        told.all_notes(),
        [
            "folder other: no mailbox, and empty",
            "folder .Inbox.Sent: Inbox.Sent: spelled INBOX in its first level",
        ]
    );
}

/// Without its own parts the tree has no INBOX, and says so.
#[test]
fn no_inbox() {
    let tree = Tree::new("no-inbox");
    tree.mailbox(b".a").file("subscriptions", b"");
    let Came { lines, told } = tree.came();
    assert_eq!(lines, ["mailbox a exists"]);
    assert_eq!(told.all_notes(), ["the folder itself: no mailbox: cur, new and tmp are missing"]);
    tree.folder(b"", &["cur"]);
    assert_eq!(
        tree.came().told.all_left_out(),
        ["the folder itself: no mailbox: new and tmp are missing"]
    );
}

/// A tree without a mailbox is reported as such, and so is a folder where a file should be. A tree that is
/// not there cannot be read.
#[test]
fn no_maildir() {
    let tree = Tree::new("no-maildir");
    let none = "the folder itself: no mailbox is in it or below it";
    assert_eq!(tree.came().told.all_left_out(), [none]);
    tree.folder(b"x", &[]).file("x/y", b"z").file("subscriptions", b"");
    let Came { lines, told } = tree.came();
    assert!(lines.is_empty());
    assert_eq!(told.all_left_out(), ["folder x: no mailbox, and not empty", none]);
    let nowhere = tree.root.join("nowhere");
    let read = read_maildir(&nowhere, None, &mut Told::default());
    assert!(matches!(read, Err(StoreError::Unreadable(..))));

    tree.mailbox(b"");
    fs::remove_file(tree.root.join("subscriptions")).expect("no file");
    tree.folder(b"subscriptions", &[]);
    let reason = "subscriptions: a folder, where the file of the subscribed names would be";
    assert!(tree.came().told.all_left_out().iter().any(|left_out| left_out == reason));
}

/// The two forms of the file name the same mailboxes.
#[test]
fn forms_of_subscriptions() {
    let names = |bytes: &[u8]| -> Vec<Vec<u8>> {
        let found = read_subscriptions(bytes, "subscriptions", b'.');
        assert!(found.iter().all(|found| matches!(found.said, Said::Subscribed(_))));
        found.iter().map(|found| found.translated().unwrap_or_default()).collect()
    };
    let expected: Vec<Vec<u8>> = vec![b"INBOX".to_vec(), b"a/b".to_vec(), b"c d".to_vec()];
    assert_eq!(names(b"INBOX\na.b\nc d\n"), expected);
    assert_eq!(names(b"INBOX\r\na.b\r\nc d"), expected);
    assert_eq!(names(b"V\t2\n\nINBOX\na\tb\nc d\n"), expected);
    assert_eq!(names(b"V\t2\n\na.b\tc\n"), [b"a.b/c".to_vec()]);
    // A tab within a level is escaped, and no lawful name has it.
    assert_eq!(names(b"V\t2\n\na\x01tb\n"), [b"a\x01tb".to_vec()]);
}

/// Subscriptions with tabs belong to the folders with dots.
#[test]
fn subscriptions_with_tabs() {
    let tree = Tree::new("tabs");
    tree.mailbox(b"").mailbox(b".a.b").file("subscriptions", b"V\t2\n\na\tb\n");
    let Came { lines, told } = tree.came();
    assert_eq!(lines, ["mailbox INBOX exists", "mailbox a/b exists subscribed"]);
    assert!(told.is_all_taken());
}
