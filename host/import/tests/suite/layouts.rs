//! Trees in other layouts than Maildir++, and what is no mailbox in a tree.

use std::fs;
use std::os::unix::fs::symlink;
use std::os::unix::net::UnixListener;
use std::process::Command;

use import::maildir::{read_maildir, Layout};
use import::Told;

use crate::calls::{run, text};
use crate::common::Came;
use crate::maildirs::Tree;

/// Folders in folders: every level is taken.
#[test]
fn layout_fs() {
    let tree = Tree::new("fs");
    tree.mailbox(b"INBOX")
        .mailbox(b"Sales")
        .mailbox(b"Sales/2025/Old offers")
        .mailbox(b"Sales/x.y");
    tree.file("subscriptions", b"Sales/2025/Old offers\nGone/Away\n")
        .file("Sales/dovecot-uidlist", b"3");
    let (layout, Came { lines, told }) = tree.came_in(None);
    assert_eq!(layout, Layout::Fs);
    assert_eq!(
        lines,
        [
            "mailbox Gone/Away subscribed",
            "mailbox INBOX exists",
            "mailbox Sales exists",
            "mailbox \"Sales/2025/Old offers\" exists subscribed",
            "mailbox Sales/x.y exists",
        ]
    );
    assert!(told.is_all_taken(), "{:?}", told.all_left_out());
    assert!(told
        .all_notes()
        .contains(&"folder Sales/2025: a level above mailboxes, and none itself".to_string()));
}

/// The tree's own folder may be INBOX too; then no other folder is.
#[test]
fn two_inboxes() {
    let tree = Tree::new("two-inboxes");
    tree.mailbox(b"").mailbox(b"Inbox").mailbox(b"INBOX/a").mailbox(b"inbox/a");
    let Came { lines, told } = tree.came();
    assert_eq!(lines, ["mailbox INBOX exists", "mailbox INBOX/a exists"]);
    assert_eq!(
        told.all_left_out(),
        [
            "folder Inbox: Inbox: the folder itself has that name already",
            "folder inbox/a: inbox/a: folder INBOX/a has that name already",
        ]
    );
}

/// Single and multiple dbox, from the tree's own folder or from that of its mailboxes.
#[test]
fn dbox() {
    let tree = Tree::new("dbox");
    let parts = &["dbox-Mails"];
    tree.folder(b"mailboxes/INBOX", parts)
        .folder(b"mailboxes/A/B.c", parts)
        .folder(b"storage", &[]);
    tree.file("storage/m.1", b"x").file("storage/dovecot.map.index.log", b"x");
    tree.file("mailboxes/INBOX/dbox-Mails/u.1", b"x").file("subscriptions", b"V\t2\n\nA\tB.c\n");
    let (layout, Came { lines, told }) = tree.came_in(None);
    assert_eq!(layout, Layout::Dbox);
    assert_eq!(lines, ["mailbox A/B.c exists subscribed", "mailbox INBOX exists"]);
    assert!(told.is_all_taken(), "{:?}", told.all_left_out());

    let inner = Tree { root: tree.root.join("mailboxes") };
    assert_eq!(inner.came().lines, ["mailbox A/B.c exists", "mailbox INBOX exists"]);

    // What is no message of mdbox, and names that stand elsewhere.
    tree.file("storage/other", b"x").folder(b"mailboxes/0123456789abcdef0123456789abcdef", parts);
    tree.mailbox(b"Maildir");
    let left_out = tree.came().told;
    let starts = [
        "folder mailboxes/0123456789abcdef0123456789abcdef: 0123456789abcdef0123456789abcdef: an \
         identifier: ",
        "folder Maildir: like a mailbox, and not where this layout has one",
        "folder storage: no mailbox, and not empty",
    ];
    assert_eq!(left_out.all_left_out().len(), starts.len(), "{:?}", left_out.all_left_out());
    for (left_out, start) in left_out.all_left_out().iter().zip(starts) {
        assert!(left_out.starts_with(start), "{left_out}");
    }
}

/// Mailboxes where Maildir++ has none, at any depth and in the folders of messages too.
#[test]
fn deeper_in_maildir_plus_plus() {
    let tree = Tree::new("deeper");
    tree.mailbox(b"").mailbox(b".a").mailbox(b".a/b/c/d").mailbox(b"x/y").mailbox(b".a/cur/z");
    tree.folder(b"new/empty", &[])
        .file("subscriptions", b"")
        .file(".Sent", b"From x")
        .file("e", b"");
    let Came { lines, told } = tree.came();
    assert_eq!(lines, ["mailbox INBOX exists", "mailbox a exists"]);
    let like = "like a mailbox, and not where this layout has one; not read";
    let bare = "no mailbox, and not empty";
    assert_eq!(
        told.all_left_out(),
        [
            format!("file .Sent: {bare}"),
            format!("folder .a/cur/z: {like}"),
            format!("folder .a/b: {bare}"),
            format!("folder .a/b/c: {bare}"),
            format!("folder .a/b/c/d: {like}"),
            format!("folder x: {bare}"),
            format!("folder x/y: {like}"),
        ]
    );
    assert_eq!(
        told.all_notes(),
        ["file e: no mailbox, and empty", "folder new/empty: no mailbox, and empty"]
    );
}

/// A folder among the messages says nothing of the layout.
#[test]
fn layout_of_messages() {
    let tree = Tree::new("layout-of-messages");
    tree.mailbox(b"").mailbox(b"cur/x").file("subscriptions", b"a.b\n");
    let (layout, Came { lines, told }) = tree.came_in(None);
    assert_eq!(layout, Layout::MaildirPlusPlus);
    assert_eq!(lines, ["mailbox INBOX exists", "mailbox a/b subscribed"]);
    assert_eq!(told.all_left_out().len(), 1);
}

/// The call may say which layout it is.
#[test]
fn layouts_that_are_said() {
    let tree = Tree::new("said");
    tree.mailbox(b"").mailbox(b".a.b").mailbox(b"c/d").file("subscriptions", b"");
    let came = tree.came();
    assert_eq!(came.lines, ["mailbox INBOX exists", "mailbox a/b exists"]);
    assert_eq!(came.told.all_left_out().len(), 2);
    let (layout, came) = tree.came_in(Some(Layout::Fs));
    assert_eq!(layout, Layout::Fs);
    assert_eq!(came.lines, ["mailbox .a.b exists", "mailbox INBOX exists", "mailbox c/d exists"]);
    assert!(came.told.is_all_taken(), "{:?}", came.told.all_left_out());
    let note = "folder .a.b: its name starts with a dot, as in Maildir++; taken as it stands";
    assert!(came.told.all_notes().contains(&note.to_string()));
}

/// Links, into the tree and out of it, and what is neither a file nor a folder: none is followed, and each
/// is reported.
#[test]
fn links_and_others() {
    for (name, inbox) in [("links-plus-plus", b"".as_slice()), ("links-fs", b"INBOX")] {
        let tree = Tree::new(name);
        tree.mailbox(inbox).mailbox(b"INBOX/sub").file("subscriptions", b"");
        fs::remove_dir_all(tree.root.join("INBOX/sub")).expect("a folder that is gone");
        let link = |target: &str, name: &str| {
            symlink(target, tree.root.join(name)).expect("a link");
        };
        link("/", ".out");
        link(".", ".loop");
        link("nowhere", ".none");
        tree.folder(b"INBOX/half", &["cur", "new"]);
        link("../cur", "INBOX/half/tmp");
        let socket = tree.root.join("socket");
        let _ = fs::remove_file(&socket);
        // A path that is too long for a socket is none to be tested.
        let has_socket = UnixListener::bind(&socket).is_ok();
        let told = tree.came().told;
        for line in [
            "entry .out: a symbolic link to /, not followed",
            "entry .loop: a symbolic link to ., not followed",
            "entry .none: a symbolic link to nowhere, not followed",
            "entry INBOX/half/tmp: a symbolic link to ../cur, not followed",
            "entry socket: neither a file nor a folder",
        ] {
            let is_due = has_socket || !line.contains("socket");
            let is_there = told.all_left_out().iter().any(|left_out| left_out == line);
            assert_eq!(is_there, is_due, "{line}: {:?}", told.all_left_out());
        }
    }
}

/// A file of subscriptions that is a link is not followed either.
#[test]
fn linked_subscriptions() {
    let tree = Tree::new("linked-subscriptions");
    tree.mailbox(b"").file("other", b"");
    symlink("other", tree.root.join("subscriptions")).expect("a link");
    assert_eq!(
        tree.came().told.all_left_out(),
        ["entry subscriptions: a symbolic link to other, not followed"]
    );
}

/// Folders that cannot be read are left out by name: here since their paths are too long.
#[test]
fn folders_that_cannot_be_read() {
    let tree = Tree::new("unreadable");
    tree.mailbox(b"").file("subscriptions", b"");
    let name = "n".repeat(250);
    let long = [name.as_str(); 10].join("/");
    tree.folder(long.as_bytes(), &[]).folder(format!("m/{long}").as_bytes(), &[]);
    fs::rename(tree.root.join("m"), tree.root.join(&long).join("m")).expect("a longer path");
    let told = tree.came().told;
    // Other programs stumble over such paths.
    fs::remove_dir_all(&tree.root).expect("a tree that goes");
    let is_unreadable = |left_out: &String| {
        left_out.starts_with(&format!("folder {long}/m/{name}/"))
            && left_out.contains(": cannot be read: File name too long")
    };
    assert_eq!(told.all_left_out().iter().filter(|line| is_unreadable(line)).count(), 1);
}

/// Below the deepest name there may be more folders; they end somewhere.
#[test]
fn deep_folders() {
    let tree = Tree::new("deep");
    let deep = ["d"; 200].join("/");
    tree.mailbox(b"INBOX").mailbox(deep.as_bytes()).file("subscriptions", b"");
    let told = tree.came().told;
    let is_deepest = |left_out: &String| left_out.ends_with("/d: 128 folders deep, not gone into");
    assert_eq!(told.all_left_out().iter().filter(|line| is_deepest(line)).count(), 1);
}

/// The sum of the list of folders is the one that other tools give.
#[test]
fn sums() {
    let tree = Tree::new("sums");
    tree.mailbox(b"").mailbox(b".a").mailbox(b".a\nb").folder(b"x", &[]).file("x/f", b"1");
    tree.file("subscriptions", b"a\n");
    symlink("x", tree.root.join("y")).expect("a link");
    let maildir = read_maildir(&tree.root, None, &mut Told::default()).expect("a tree");
    let list = "find . -type d -print0 | LC_ALL=C sort -z | sha256sum; sha256sum <subscriptions";
    let output = Command::new("sh").args(["-c", list]).current_dir(&tree.root).output();
    let subscriptions = maildir.subscriptions_sum.expect("a sum");
    let sums = format!("{}  -\n{subscriptions}  -\n", maildir.folders_sum);
    assert_eq!(text(&output.expect("sums").stdout), sums);
}

/// A folder of the machine that is no store: status 1, and it is said by name.
#[test]
fn no_store() {
    let tree = Tree::new("no-store");
    tree.folder(b"apt/conf.d", &[]).file("apt/conf.d/x", b"1").file("passwd", b"x");
    let output = run(&["maildir", tree.root.to_str().expect("text")]);
    assert_eq!(output.status.code(), Some(1));
    for line in [
        "file passwd: no mailbox, and not empty",
        "folder apt: no mailbox, and not empty",
        "folder apt/conf.d: no mailbox, and not empty",
        "the folder itself: no mailbox is in it or below it",
    ] {
        assert!(text(&output.stderr).contains(&format!("import: left out: {line}\n")), "{line}");
        assert!(text(&output.stdout).contains(&format!("# Left out: {line}\n")), "{line}");
    }
}
