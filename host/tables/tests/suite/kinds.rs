//! Which kind a file is, by its content, and what is refused as doubtful.

use tables::Kind;

use crate::common::{file, frames, maildir, packed, run};

const ROWS: [(&str, u16); 2] = [("INBOX", 0x0001), ("Sent/Old", 0x2003)];
const SESSION: &str = "mailbox INBOX exists\nmailbox Sent/Old exists subscribed sent\n";
const ANSWER: &str =
    "* LIST () \"/\" INBOX\r\n* LIST (\\Sent \\Subscribed) \".\" Sent.Old\r\na OK\r\n";

/// One table in each kind that has all its flags: alike to all others, with the kind seen or named.
#[test]
fn one_table_in_every_kind() {
    let inputs = [
        ("session", file("kind.session", SESSION)),
        ("frames", file("kind.frames", frames(&ROWS))),
        ("packed", file("kind.packed", packed(&ROWS))),
        ("answer", file("kind.answer", ANSWER)),
    ];
    for (kind_a, a) in &inputs {
        for (kind_b, b) in &inputs {
            let (status, text, told) = run(&[a, b]);
            assert_eq!(status, 0, "{kind_a} {kind_b}: {text}{told}");
            let named = [format!("{kind_a}:{a}"), format!("{kind_b}:{b}")];
            let (status, _, _) = run(&[&named[0], &named[1]]);
            assert_eq!(status, 0, "{kind_a} {kind_b}");
            let (status, _, _) = run(&["--kind-b", kind_b, "--kind-a", kind_a, a, b]);
            assert_eq!(status, 0, "{kind_a} {kind_b}");
        }
    }
    let tree = maildir("kind-tree", &["", ".Sent.Old"], "Sent.Old\n");
    for (kind, input) in &inputs {
        let (status, text, _) = run(&[input, &tree]);
        assert_eq!(status, 1, "{kind}");
        // A Maildir knows of no special use.
        let differs = "Differs    Sent/Old\n  in A     exists subscribed sent\n  in B     exists subscribed\n";
        assert!(text.contains(differs), "{kind}: {text}");
    }
    assert_eq!(run(&[&tree, &format!("maildir:{tree}")]).0, 0);
}

#[test]
fn by_content() {
    // A table whose rows all have a special use, and no byte 00.
    let without_zero = packed(&[("Sent", 0x2003)]);
    assert!(!without_zero.contains(&0));
    let files: [(&[u8], Kind); 6] = [
        (b"\n# A comment.\nwalk\n", Kind::Session),
        (b"\xEF\xBB\xBFmailbox a exists\r\n", Kind::Session),
        (b"4D0001FF0161\nzz\n", Kind::Frames),
        (b"S: * list () NIL a\n", Kind::Answer),
        (b"\0\x01\xFF\x01%", Kind::Packed),
        (&without_zero, Kind::Packed),
    ];
    for (bytes, kind) in files {
        assert_eq!(Kind::of_bytes(bytes), Ok(kind), "{}", bytes.escape_ascii());
    }
}

#[test]
fn doubtful_files_are_refused() {
    // Text whose fourth byte is the length of the rest.
    let long = [b"*\x20L\x49".as_slice(), &[b'x'; 0x49]].concat();
    let files: [(&[u8], &str); 8] = [
        (b"", "it is empty, so its kind cannot be seen"),
        (b"\n\n", "(it has no item)"),
        (b"# Nothing but a comment.\n", "(it has no item)"),
        (b"4D0\n", "(no line of it is a frame)"),
        (b"4D0001FF0161\r\n", "(no line of it is a frame)"),
        (b"mailbox a exists\nfolder b\n", "(line 2: unknown item \"folder\""),
        (b"\0\x01\xFF\x02a", "nor a packed table"),
        (&long, "nor a packed table"),
    ];
    for (bytes, message) in files {
        let reason = Kind::of_bytes(bytes).expect_err("no kind");
        assert!(reason.contains(message), "{}: {reason}", bytes.escape_ascii());
    }
    // Rows that fill a file, and an answer within a name.
    let name = "\r\n* LIST () NIL x\r\n";
    let doubtful = [b"\0\x01\xFF".as_slice(), &[name.len() as u8], name.as_bytes()].concat();
    let reason = "by its content it may be a packed table or a recorded answer";
    assert_eq!(Kind::of_bytes(&doubtful), Err(reason.to_string()));

    // An answer that someone has put rows beside.
    let mixed = b"mailbox a exists\n* LIST () NIL b\n";
    let mixed_reason = "by its content it may be a session file or a recorded answer";
    assert_eq!(Kind::of_bytes(mixed), Err(mixed_reason.to_string()));

    let (path, other) = (file("doubtful", &doubtful), file("sure.session", SESSION));
    let (status, text, told) = run(&[&other, &path]);
    assert_eq!((status, text.as_str()), (2, ""));
    assert!(told.starts_with(&format!("compare: {path}: {reason}; name its kind, as ")), "{told}");
    assert_eq!(run(&[&other, &format!("packed:{path}")]).0, 1);
}

/// An empty table can be named.
#[test]
fn empty_tables() {
    let (empty, comment) = (file("empty", ""), file("comment.session", "# None.\n"));
    for kind in ["session", "packed"] {
        let (a, b) = (format!("{kind}:{empty}"), format!("session:{comment}"));
        assert_eq!(run(&[&a, &b]).0, 0, "{kind}");
    }
    // A store without a mailbox is never alike to anything.
    let tree = maildir("empty-tree", &[], "");
    let folder = std::path::Path::new(&tree).join(".Some");
    std::fs::create_dir_all(folder).expect("a folder");
    let (status, text, _) = run(&[&tree, &tree]);
    assert_eq!(status, 1, "{text}");
    let reported = "Left out A the folder itself: no mailbox is in it or below it\n";
    assert!(text.contains(reported), "{text}");
    let names = format!("names:{empty}");
    let (status, text, _) = run(&[&names, &names]);
    assert_eq!(status, 1, "{text}");
    assert!(text.contains("Left out A the store: no mailbox was found in it\n"), "{text}");
}

/// A kind that is named wrongly is reported.
#[test]
fn wrong_kinds() {
    let (session, frames) = (file("wrong.session", SESSION), file("wrong.frames", frames(&ROWS)));
    let calls = [
        (format!("frames:{session}"), "its first line is not that of a file of frames"),
        (format!("session:{frames}"), "its first line is not that of a session file"),
        (format!("answer:{session}"), "no answer: there is no LIST or LSUB line in it"),
        (format!("maildir:{session}"), "a Maildir is a folder"),
    ];
    for (input, message) in calls {
        let (status, text, told) = run(&[&input, &session]);
        assert_eq!((status, text.as_str()), (2, ""), "{input}");
        assert!(told.contains(message), "{input}: {told}");
    }
    // Text as a packed table: what it holds is no table, and is never alike, to itself either.
    let packed = format!("packed:{session}");
    let (status, text, _) = run(&[&packed, &packed]);
    assert_eq!(status, 1, "{text}");
}
