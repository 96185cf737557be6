//! The session file: what its comments say, and where it is never written.

use std::fs;
use std::os::unix::fs::symlink;
use std::path::Path;
use std::process::{Command, Stdio};

use crate::calls::{file, run, text};
use crate::common::packed_table;
use crate::maildirs::Tree;

const DATE: [&str; 2] = ["--date", "2026-11-17 12:00:00 UTC"];

/// A path of this test's own at which nothing is.
fn free(name: &str) -> String {
    let path = Path::new(env!("CARGO_TARGET_TMPDIR")).join(name);
    let _ = fs::remove_file(&path);
    path.to_str().expect("text").to_string()
}

/// The whole file, of an answer.
#[test]
fn comments() {
    let answer =
        file("comments.answer", "* LIST () \"/\" a\r\n* LIST () \"/\" b%\r\nx * LIST () c\r\n");
    let output = run(&["answer", &answer, "--walk", DATE[0], DATE[1]]);
    assert_eq!(output.status.code(), Some(1));
    let sum = "0bc45d21c1e8984a8035e13801e46167f87d7aaf25f01ee85bcc38245170bffc";
    let expected = format!(
        "# 1 row from the answer {answer}; 2 left out\n\
         # Made by import {}, 2026-11-17 12:00:00 UTC\n\
         # SHA-256 of the answer: {sum}\n\
         # An answer knows what the server said: attributes, special uses and subscriptions as far as \
         they were asked for.\n\
         # Left out: line 3: like an answer, and not at the start of a line of the server, not read: \
         x * LIST () c\n\
         # Left out: line 2: b%: name bytes are 20 to 7E (hex), without % and *\n\
         mailbox a exists\n\nwalk remote\n",
        env!("CARGO_PKG_VERSION")
    );
    assert_eq!(text(&output.stdout), expected);
}

/// Of a tree and of a list, what the sums are of; without a date, the clock's.
#[test]
fn sums_and_dates() {
    let tree = Tree::new("sums-and-dates");
    tree.mailbox(b"").file("subscriptions", b"INBOX\n");
    let output = run(&["maildir", tree.root.to_str().expect("text")]);
    let session = text(&output.stdout);
    assert!(session.contains("\n# SHA-256 of the sorted list of its folders: "), "{session}");
    assert!(session.contains("\n# SHA-256 of its file subscriptions: "), "{session}");
    assert!(session.contains(", 20") && session.contains(" UTC\n"), "{session}");
    assert!(session.starts_with("# 1 row from the Maildir++ tree /"), "{session}");

    let names = file("sums.names", "a.b\n");
    let output =
        run(&["names", &names, "--subscribed", &names, "--delimiter", ".", DATE[0], "x\ny"]);
    let session = text(&output.stdout);
    assert!(
        session.starts_with(&format!("# 1 row from the names {names}, levels parted by .; 0 left"))
    );
    assert!(session.contains(", x\\x0Ay\n"), "{session}");
    assert!(session.contains(&format!("# SHA-256 of the subscribed names {names}: ")), "{session}");
}

/// Lines of any length are left out by their number and their start, and the file is still a session.
#[test]
fn long_comments() {
    let long = "y\u{1}é".repeat(10_000);
    let answer = file("long.answer", &format!("x * LIST ({long})\n* LIST () \"/\" a\n"));
    let output = run(&["answer", &answer, DATE[0], &"é😀".repeat(20_000)]);
    assert_eq!(output.status.code(), Some(1));
    let session = text(&output.stdout);
    assert_eq!(packed_table(session), b"\0\x01\xFF\x01a");
    assert!(session.contains("# Left out: line 1: like an answer"), "{session}");
    assert!(session.contains("not read: x * LIST (y\\x01\\xC3\\xA9y\\x01"), "{session}");
    assert!(text(&output.stderr).contains(&"y\\x01\\xC3\\xA9".repeat(10_000)));
}

/// Nothing is written over a file, unless that is asked for.
#[test]
fn files_that_are_there() {
    let names = file("there.names", "a\n");
    let session = free("there.session");
    let write = |more: &[&str]| {
        let words = [&["names", &names, "-o", &session, DATE[0], DATE[1]], more].concat();
        let output = run(&words);
        let told = text(&output.stderr).to_string();
        (output.status.code(), told, fs::read_to_string(&session).expect("a file"))
    };
    let (status, _, written) = write(&["--walk"]);
    assert_eq!(status, Some(0));
    assert!(written.ends_with("mailbox a exists\n\nwalk remote\n"), "{written}");
    let (status, told, kept) = write(&[]);
    assert_eq!((status, kept), (Some(2), written));
    assert!(told.contains("is there already; --force writes over it"), "{told}");
    let (status, _, written) = write(&["--force"]);
    assert_eq!(status, Some(0));
    assert!(written.ends_with("\nmailbox a exists\n"), "{written}");
    assert_eq!(packed_table(&written), b"\0\x01\xFF\x01a");
    let beside = Path::new(&session).parent().expect("a folder").read_dir().expect("a folder");
    let is_left = |name: &str| name.starts_with("there.session.");
    assert!(!beside.flatten().any(|entry| entry.file_name().to_str().is_some_and(is_left)));

    let output = run(&["names", &names, "-o", "/no-such-folder/x"]);
    assert_eq!(output.status.code(), Some(2));
    assert!(text(&output.stderr).starts_with("import: cannot write /no-such-folder/x: "));
    let output = run(&["names", &names, "-o", "/dev/null", "--force"]);
    assert_eq!(output.status.code(), Some(2));
    assert!(text(&output.stderr).contains("is no plain file"), "{}", text(&output.stderr));
}

/// Nothing is written over what is read, by whatever path, with --force too.
#[test]
fn files_that_are_read() {
    let names = file("read.names", "a\n");
    let subscribed = file("read.subscribed", "b\n");
    let (hard, soft) = (free("read.hard"), free("read.soft"));
    fs::hard_link(&names, &hard).expect("a link");
    symlink(&subscribed, &soft).expect("a link");
    for output in [&names, &subscribed, &hard, &soft] {
        for force in [&[][..], &["--force"]] {
            let words = ["names", &names, "--subscribed", &subscribed, "-o", output];
            let output = run(&[&words[..], force].concat());
            assert_eq!(output.status.code(), Some(2));
            let told = text(&output.stderr);
            assert!(told.contains("is read here, so no session is written there"), "{told}");
        }
    }
    // Standard input that is a file.
    let mut command = Command::new(env!("CARGO_BIN_EXE_import"));
    command.args(["names", "-", "-o", &names, "--force"]);
    command.stdin(fs::File::open(&names).expect("a file")).stdout(Stdio::null());
    assert_eq!(command.output().expect("a run").status.code(), Some(2));
    assert_eq!(fs::read_to_string(&names).expect("names"), "a\n");
    assert_eq!(fs::read_to_string(&subscribed).expect("names"), "b\n");
}

/// Nothing is written below a tree that is read, be a file there or not, with --force too.
#[test]
fn files_below_the_tree() {
    let tree = Tree::new("below");
    tree.mailbox(b"").mailbox(b".a").file(".a/cur/mail", b"mail").file("subscriptions", b"");
    let root = tree.root.to_str().expect("text");
    let link = free("below.link");
    symlink(&tree.root, &link).expect("a link");
    for kind in ["maildir", "mbox"] {
        for output in ["fresh", ".a/cur/mail", ".a/cur/fresh", "subscriptions", "../below/.a/fresh"]
        {
            for start in [root, &link] {
                let path = format!("{start}/{output}").replace("link/../below", "link");
                for force in [&[][..], &["--force"]] {
                    let output = run(&[&[kind, root, "-o", &path], force].concat());
                    assert_eq!(output.status.code(), Some(2), "{path}");
                    let told = text(&output.stderr);
                    assert!(
                        told.contains(", which is read, so nothing is written there"),
                        "{told}"
                    );
                }
            }
        }
    }
    assert_eq!(fs::read(tree.root.join(".a/cur/mail")).expect("mail"), b"mail");
    let fresh = ["fresh", ".a/fresh", ".a/cur/fresh"];
    assert!(!fresh.iter().any(|name| tree.root.join(name).exists()));
    fs::remove_file(&link).expect("a link");

    // A file of the tree under another name: that name is given a new file, and the tree's stays.
    let hard = free("below.hard");
    fs::hard_link(tree.root.join(".a/cur/mail"), &hard).expect("a link");
    assert_eq!(run(&["maildir", root, "-o", &hard, "--force"]).status.code(), Some(0));
    assert_eq!(fs::read(tree.root.join(".a/cur/mail")).expect("mail"), b"mail");
    assert!(fs::read_to_string(&hard).expect("a session").ends_with("\nmailbox a exists\n"));
}
