//! Trees of mbox files.

use std::fs;
use std::os::unix::fs::symlink;
use std::process::Command;

use import::mbox::{read_mbox, Mbox};
use import::{Room, Told};

use crate::calls::text;
use crate::common::{came, Came};
use crate::maildirs::Tree;

fn read(tree: &Tree, told: &mut Told) -> Mbox {
    read_mbox(&tree.root, told).expect("a tree")
}

fn came_of(tree: &Tree) -> Came {
    let mut told = Told::default();
    let mbox = read(tree, &mut told);
    came(&mbox.all_found, told, Room::Program)
}

const MAIL: &[u8] = b"From x@example.org Tue Nov 17 12:00:00 2026\n\nHello\n";

/// As mail servers have it: files, and folders beside them.
#[test]
fn files_and_folders() {
    let tree = Tree::new("mbox");
    tree.folder(b"Work/Old", &[]).folder(b".imap/Work", &[]).folder(b"none", &[]);
    tree.file("inbox", MAIL).file("Work/Sales", MAIL).file("Work/Old/empty", b"");
    // A list of that name, beside the files of a server.
    tree.file("dovecot", MAIL)
        .file("dovecot-uidvalidity.5f3a", b"")
        .file(".imap/Work/dovecot.index", b"x");
    tree.file(".subscriptions", b"Work/Sales\nWork\n").file("inbox.lock", b"77");
    let Came { lines, told } = came_of(&tree);
    assert_eq!(
        lines,
        [
            "mailbox INBOX exists",
            "mailbox Work subscribed",
            "mailbox Work/Old/empty exists",
            "mailbox Work/Sales exists subscribed",
            "mailbox dovecot exists",
        ]
    );
    assert!(told.is_all_taken(), "{:?}", told.all_left_out());
    assert_eq!(
        told.all_notes(),
        [
            "folder none: no mailbox, and empty",
            "file inbox: inbox: spelled INBOX in its first level"
        ]
    );
}

/// As Thunderbird has it: what lies below a mailbox is in a folder of its name with `.sbd`.
#[test]
fn thunderbird() {
    let tree = Tree::new("thunderbird");
    tree.folder(b"Inbox.sbd/Sales.sbd", &[]).folder(b"plain.sbd", &[]);
    tree.file("Inbox", MAIL).file("Inbox.msf", b"index").file("Inbox.sbd/Sales", b"");
    tree.file("Inbox.sbd/Sales.msf", b"index").file("Inbox.sbd/Sales.sbd/2025", MAIL);
    tree.file("Gone.msf", b"index").file("popstate.dat", b"x").file("plain.sbd/a", MAIL);
    let Came { lines, told } = came_of(&tree);
    assert_eq!(
        lines,
        [
            "mailbox INBOX exists",
            "mailbox INBOX/Sales exists",
            "mailbox INBOX/Sales/2025 exists",
            "mailbox plain.sbd/a exists",
        ]
    );
    assert_eq!(
        told.all_left_out(),
        [
            "file Gone.msf: an index of Thunderbird, and the file of its mailbox is not there",
            "file popstate.dat: no mailbox: it is not empty and does not start with \"From \"",
        ]
    );
}

/// What is no mailbox is left out by name.
#[test]
fn what_is_left_out() {
    let tree = Tree::new("mbox-left-out");
    tree.folder(b"notes", &[]).folder(b".hidden", &[]).folder(b".imap", &[]).folder(b"X", &[]);
    tree.file("notes/a.txt", b"text").file(".hidden/b", MAIL).file(".imap/other", b"x");
    tree.file(".secret", MAIL).file("50%", MAIL).file("x", MAIL).file("X/inbox", MAIL);
    symlink("x", tree.root.join("y")).expect("a link");
    let Came { lines, told } = came_of(&tree);
    assert_eq!(lines, ["mailbox X/inbox exists", "mailbox x exists"]);
    assert_eq!(
        told.all_left_out(),
        [
            "entry y: a symbolic link to x, not followed",
            "file .secret: its name starts with a dot, so it is not taken",
            "folder .hidden: no mailbox, and not empty",
            "folder .imap: no mailbox, and not empty",
            "file notes/a.txt: no mailbox: it is not empty and does not start with \"From \"",
            "folder notes: no mailbox, and not empty",
            "file 50%: 50%: name bytes are 20 to 7E (hex), without % and *",
        ]
    );
    assert!(told.all_notes()[0].starts_with("the folder itself: no file for INBOX"));
}

#[test]
fn no_mailbox() {
    let tree = Tree::new("mbox-none");
    tree.file(".subscriptions", b"");
    let Came { lines, told } = came_of(&tree);
    assert!(lines.is_empty());
    assert_eq!(told.all_left_out(), ["the folder itself: no mailbox is in it or below it"]);
}

/// A file and a folder that would give one name: the second is left out.
#[test]
fn two_of_one_name() {
    let tree = Tree::new("mbox-two");
    tree.folder(b"a.sbd", &[]).folder(b"b", &[]).file("a", MAIL).file("b/c", MAIL);
    fs::create_dir(tree.root.join("a.d")).expect("a folder");
    tree.file("INBOX", MAIL).file("Inbox", MAIL);
    let told = came_of(&tree).told;
    assert_eq!(told.all_left_out(), ["file Inbox: Inbox: file INBOX has that name already"]);
}

/// The sum of the list of names is the one that other tools give.
#[test]
fn sums() {
    let tree = Tree::new("mbox-sums");
    tree.folder(b"Work", &[])
        .file("Work/Sales", MAIL)
        .file("a", b"")
        .file(".subscriptions", b"a\n");
    symlink("a", tree.root.join("y")).expect("a link");
    let mbox = read(&tree, &mut Told::default());
    let list = "find . -print0 | LC_ALL=C sort -z | sha256sum; sha256sum <.subscriptions";
    let output = Command::new("sh").args(["-c", list]).current_dir(&tree.root).output();
    let subscriptions = mbox.subscriptions_sum.expect("a sum");
    let sums = format!("{}  -\n{subscriptions}  -\n", mbox.names_sum);
    assert_eq!(text(&output.expect("sums").stdout), sums);
}
