//! Answers and Maildirs: what an importer leaves out is reported, and the tables are never called alike.

use std::fs;

use crate::common::{file, folder, maildir, run};

/// The other kinds of stores, by their words: a tree of mbox files and lists.
#[test]
fn named_kinds() {
    let session = file("kinds.session", "mailbox Customers/ABC exists\nmailbox INBOX exists\n");
    let tree = folder("kinds-mbox");
    fs::create_dir_all(format!("{tree}/Customers")).expect("a folder");
    for (path, text) in [("INBOX", ""), ("Customers/ABC", "From x\n"), (".subscriptions", "")] {
        fs::write(format!("{tree}/{path}"), text).expect("a file");
    }
    let names = file("kinds.names", "INBOX\nCustomers/ABC\n");
    let cyrus = file("kinds.cyrus", "INBOX (\\HasNoChildren)\nCustomers.ABC (\\HasNoChildren)\n");
    for (kind, path, shown) in [
        ("mbox", &tree, "an mbox tree"),
        ("names", &names, "a list of names"),
        ("doveadm", &names, "a list of doveadm"),
        ("cyrus", &cyrus, "a list of Cyrus"),
    ] {
        let (status, text, told) = run(&[&session, &format!("{kind}:{path}")]);
        assert_eq!(status, 0, "{kind}: {text}{told}");
        assert!(text.contains(&format!("{path}, {shown}: 2 rows\n")), "{text}");
        let (status, text, _) = run(&["--kind-b", kind, &session, path]);
        assert_eq!(status, 0, "{kind}: {text}");
    }
    // What such a store leaves out is reported too, and a list is never taken for one by its content.
    let bad = file("kinds-bad.cyrus", "INBOX (\\HasNoChildren)\nno list\n");
    let (status, text, _) = run(&[&session, &format!("cyrus:{bad}")]);
    assert_eq!(status, 1);
    assert!(text.contains("Left out B line 2: neither of the two forms, not read: no list\n"));
    let (status, _, told) = run(&[&session, &names]);
    assert_eq!(status, 2);
    assert!(told.contains("name its kind"), "{told}");
    let (status, _, told) = run(&[&session, &format!("mbox:{names}")]);
    assert_eq!(status, 2);
    assert!(told.contains("an mbox tree is a folder"), "{told}");
}

/// What the importer leaves out is reported once.
#[test]
fn once() {
    let answer = file("once.answer", "* LIST () \"/\" a\r\nx * LIST () \"/\" b\r\n");
    let session = file("once.session", "mailbox a exists\n");
    let (status, text, _) = run(&[&session, &answer]);
    assert_eq!((status, text.matches("Left out B").count()), (1, 1), "{text}");
    assert!(text.contains("Left out B line 2: like an answer, "), "{text}");
}

/// The night of `Customers/ABC`: a server's answer that leaves out a folder which the disk has.
#[test]
fn a_folder_that_a_server_left_out() {
    let tree = maildir("night", &["", ".Customers.ABC"], "Customers.ABC\n");
    let answer = file("night.answer", "* LIST () \".\" INBOX\r\na OK\r\n");
    let (status, text, _) = run(&[&tree, &answer]);
    assert_eq!(status, 1);
    assert!(text.contains("Only A     Customers/ABC                exists subscribed\n"), "{text}");
}

/// Both have what the rules have no room for, and the rest alike.
#[test]
fn left_out_by_the_importer() {
    let answer = file("left.answer", "* LIST () \".\" INBOX\r\n* LIST () \".\" \"50%\"\r\n");
    let tree = maildir("left", &["", ".50%"], "");
    for (a, b) in [(&answer, &answer), (&tree, &tree), (&tree, &answer)] {
        let (status, text, _) = run(&[a, b]);
        assert_eq!(status, 1, "{text}");
        assert!(text.contains("\nLeft out A ") && text.contains("\nLeft out B "), "{text}");
        let summary = "0 in A alone, 0 in B alone, 0 with other flags or readers, 1 name alike; \
                       2 left out: the tables are not alike\n";
        assert!(text.ends_with(summary), "{text}");
        let (status, text, _) = run(&["--json", a, b]);
        assert_eq!(status, 1);
        assert!(text.contains("50%: name bytes are 20 to 7E (hex)"), "{text}");
        assert!(text.ends_with("\"alike\": false}\n"), "{text}");
    }
}

/// A line that cannot be read is left out too.
#[test]
fn lines_that_cannot_be_read() {
    let good = file("good.answer", "* LIST () \"/\" a\r\n");
    let bad = file("bad.answer", "* LIST () \"/\" a\r\n* LIST (\\Odd \"/\" b\r\n");
    let (status, text, _) = run(&[&good, &bad]);
    assert_eq!(status, 1);
    assert!(text.contains("Left out B line 2: cannot be read: "), "{text}");
}

/// More names than a table has rows.
#[test]
fn more_than_a_table_holds() {
    let answer: String = (0..513).map(|at| format!("* LIST () \"/\" n{at:03}\r\n")).collect();
    let path = file("many.answer", answer);
    let (status, text, _) = run(&[&path, &path]);
    assert_eq!(status, 1);
    assert!(text.contains("Left out A line 513: n512: a table has at most 512 rows\n"), "{text}");
}

/// Mailboxes in folders of folders, of which the answer says nothing: read, or left out by the name of
/// the folder, and never passed over.
#[test]
fn folders_in_folders() {
    let tree = maildir("nested", &["", "Customers/ABC"], "");
    let answer = file("nested.answer", "* LIST () \"/\" INBOX\r\n");
    let (status, text, _) = run(&[&tree, &answer]);
    assert_eq!(status, 1, "{text}");
    let is_named = |line: &str| {
        line.contains("Customers") && (line.starts_with("Only A") || line.starts_with("Left out A"))
    };
    assert!(text.lines().any(is_named), "{text}");
}

/// Lines with something before them, of which a server's answer may have any: read or left out, by the
/// line, and never passed over. Client commands and the root are no mailboxes.
#[test]
fn lines_with_marks() {
    let session = file("marked.session", "mailbox b exists\n");
    let plain = "* LIST () \"/\" b\r\n";
    for mark in ["\u{feff}", "  ", "[2026-11-17 12:00:00] 4< ", "17:34.08 < ", "> ", "S-x:Socket: "]
    {
        let answer = format!("{mark}* LIST () \"/\" a\r\n{plain}");
        let (status, text, _) =
            run(&[&session, &format!("answer:{}", file("marked.answer", answer))]);
        assert_eq!(status, 1, "{mark}: {text}");
        let is_named = |line: &str| {
            line.starts_with("Only B     a ") || line.starts_with("Left out B line 1: ")
        };
        assert!(text.lines().any(is_named), "{mark}: {text}");
    }
    let answer = format!("C: a1 LIST (SUBSCRIBED) \"\" *\r\n{plain}* LIST (\\Noselect) \"/\" \"\"\r\na1 OK LIST (done)\r\n");
    let (status, text, _) = run(&[&session, &file("plain.answer", answer)]);
    assert_eq!(status, 0, "{text}");
}
