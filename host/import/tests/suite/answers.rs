//! Recorded answers of servers.

use import::answer::read_answer;
use import::{Room, Told};

use crate::common::{came, Came};

fn of_answer(answer: impl AsRef<[u8]>) -> Came {
    let mut told = Told::default();
    let found = read_answer(answer.as_ref(), &mut told).expect("an answer");
    came(&found, told, Room::Program)
}

/// Answers whose rows are all that they say, and of which nothing is left out.
#[test]
fn whole_answers() {
    let answers: [(&str, &[&str]); 13] = [
        ("* LIST () \"/\" a\r\n", &["mailbox a exists"]),
        ("* LIST () \"/\" a\n* LIST () \"/\" \"b\"", &["mailbox a exists", "mailbox b exists"]),
        ("* LIST () \"/\" b\r\n* LIST () \"/\" a\r\n", &["mailbox a exists", "mailbox b exists"]),
        ("* list (\\SENT \\hasnochildren) \"/\" a\r\n", &["mailbox a exists sent"]),
        ("* LIST () \".\" \"a.b\"\r\n", &["mailbox a/b exists"]),
        ("* LIST () \"\\\\\" \"a\\\\b\"\r\n", &["mailbox a/b exists"]),
        ("* LIST () NIL news.misc\r\n", &["mailbox news.misc exists"]),
        ("* LIST () \"/\" {3}\r\na b\r\n", &["mailbox \"a b\" exists"]),
        (
            "* LIST () \"/\" {3}\na\\b (\"CHILDINFO\" (\"SUBSCRIBED\"))\n",
            &["mailbox \"a\\\\b\" exists"],
        ),
        (
            "* LIST () \"/\" a\r\n* LSUB () \"/\" a\r\n* LSUB () \"/\" b\r\n",
            &["mailbox a exists subscribed", "mailbox b subscribed"],
        ),
        (
            "* LIST (\\NonExistent \\HasChildren) \"/\" a\r\n* LIST (\\Subscribed) \"/\" a/b\r\n",
            &["mailbox a/b exists subscribed"],
        ),
        (
            "* LSUB (\\Noselect) \"/\" a\r\n* LIST (\\Subscribed \\NonExistent) \"/\" a/b\r\n",
            &["mailbox a/b subscribed"],
        ),
        (
            "S: * LIST (\\Marked) \"/\" a\r\n< * LIST (\\Trash) \"/\" a\r\n",
            &["mailbox a exists marked trash"],
        ),
    ];
    for (answer, lines) in answers {
        let Came { lines: given, told } = of_answer(answer);
        assert_eq!(given, lines, "{answer}");
        assert!(told.is_all_taken(), "{answer}: {:?}", told.all_left_out());
    }
}

/// Every attribute for which there is a flag.
#[test]
fn attributes() {
    let answer =
        "* LIST (\\Subscribed \\Remote \\Noselect \\NoInferiors \\Unmarked \\All \\Archive \
                  \\Drafts \\Flagged \\Junk \\Sent \\Trash \\HasNoChildren) \"/\" a\r\n";
    let words =
        "mailbox a exists subscribed remote noselect noinferiors unmarked all archive drafts \
                 flagged junk sent trash";
    let Came { lines, told } = of_answer(answer);
    assert_eq!(lines, [words]);
    assert!(told.is_all_taken());
}

/// What is left out is told by its line and its name, and the rest is taken.
#[test]
fn what_is_left_out() {
    let kept = "* LIST () \"/\" kept\r\n";
    let long = "x".repeat(201);
    let deep = ["a"; 17].join("/");
    let answers: [(&str, &str); 17] = [
        ("* LIST () \".\" \"a/b.c\"", "a/b.c: it holds \"/\" within a level"),
        ("* LIST () NIL a/b", "a/b: it has one level and holds \"/\""),
        ("* LIST () \"/\" \"a%\"", "a%: name bytes are 20 to 7E (hex), without % and *"),
        ("* LIST () \"/\" \"caf\u{e9}\"", "\"caf\\xC3\\xA9\": name bytes are 20 to 7E"),
        ("* LIST () \"/\" {3}\r\na\0b", "\"a\\x00b\": name bytes are 20 to 7E"),
        (&format!("* LIST () \"/\" {long}"), "xx: a name has 1 to 200 bytes"),
        (&format!("* LIST () \"/\" {deep}"), "a/a: names have 1 to 16 levels"),
        ("* LIST () \"/\" a//b", "a//b: no level of a name is empty"),
        (
            "* LIST (\\Important) \"/\" a",
            "a: \\Important is an attribute for which there is no flag",
        ),
        ("* LIST (\\Marked \\Unmarked) \"/\" a", "a: it is said to be marked and to be unmarked"),
        ("* LIST (\\NonExistent) \"/\" a", "a: it neither exists nor is subscribed"),
        ("* LIST (\\NonExistent \\Subscribed \\Remote) \"/\" a", "a: remote, said where it is not"),
        ("* LIST () \"/\" a (\"OLDNAME\" (\"b\"))", "a: OLDNAME is extended data that no row has"),
        ("* LSUB (\\Marked) \"/\" a", "a: marked, said where it is not said to exist"),
        ("* LIST () \"/\"", "cannot be read: a space is missing: * LIST () \"/\""),
        ("* LIST () \"\" a", "cannot be read: the delimiter is one byte in quotes, or NIL"),
        ("* XLIST (\\Inbox) \"/\" Box", "neither LIST nor LSUB, not read: * XLIST"),
    ];
    for (line, reason) in answers {
        let Came { lines, told } = of_answer(format!("{kept}{line}\r\n* LIST () \"/\" also\r\n"));
        for kept in ["mailbox kept exists", "mailbox also exists"] {
            assert!(lines.iter().any(|line| line == kept), "{line}: {lines:?}");
        }
        let [left_out] = told.all_left_out() else {
            panic!("{line}: {:?}", told.all_left_out());
        };
        assert!(left_out.starts_with("line 2: "), "{left_out}");
        assert!(left_out.contains(reason), "{left_out}");
    }
}

/// Lines that cannot be read do not swallow those after them.
#[test]
fn unreadable_lines() {
    for line in [
        "* LIST ",
        "* LIST (",
        "* LIST (\\Marked",
        "* LIST () \"/\" \"a",
        "* LIST () \"/\" \"a\\x\"",
        "* LIST () \"/\" \"a\" b",
        "* LIST () \"/\" {x}",
        "* LIST () \"/\" {99999999999999999999}",
        "* LIST () \"/\" {999}",
        "* LIST () \"/\" {-1}",
        // A record that leaves the bytes of literals out.
        "* LIST () \"/\" {3}",
        "* LIST () \"/\" {1}",
        "* LIST () \"/\" a (",
        "* LIST () \"/\" a (\"X\" (()",
        "* LIST () / a",
        "* LIST \"/\" a",
    ] {
        let Came { lines, told } = of_answer(format!("{line}\r\n* LIST () \"/\" b\r\n"));
        assert_eq!(lines, ["mailbox b exists"], "{line}");
        let [left_out] = told.all_left_out() else {
            panic!("{line}: {:?}", told.all_left_out());
        };
        assert!(left_out.starts_with("line 1: cannot be read: "), "{left_out}");
    }
}

/// What stands in a literal is no line of the server, of a name or of something else. It is reported: a
/// record may leave literals out, and then it was a line after all.
#[test]
fn literals_hide_lines() {
    let inside = "* LIST () \"/\" no";
    let length = inside.len();
    let answer = format!(
        "* 1 FETCH (BODY[] {{{length}}}\r\n{inside})\r\n* LIST () \"/\" {{{length}}}\r\n{inside}\r\n\
         * LIST () \"/\" yes\r\n"
    );
    let Came { lines, told } = of_answer(answer);
    assert_eq!(lines, ["mailbox yes exists"]);
    let starts = [
        "line 2: within a literal of line 1, not read: ",
        "line 4: within a literal of line 3, not read: ",
        "line 3: ",
    ];
    assert_eq!(told.all_left_out().len(), starts.len());
    for (left_out, start) in told.all_left_out().iter().zip(starts) {
        assert!(left_out.starts_with(start), "{left_out}");
    }
}

/// Lines without a mailbox are counted, and the first is told; nothing is lost with them.
#[test]
fn other_lines() {
    let answer = "a OK [CAPABILITY IMAP4rev1] in\r\n* NAMESPACE ((\"\" \".\")) NIL NIL\r\n\r\n\
                  C: b LIST \"\" \"*\"\r\n* LIST (\\Noselect) \"/\" \"\"\r\n* LIST () \"/\" a\r\nb OK\r\n";
    let Came { lines, told } = of_answer(answer);
    assert_eq!(lines, ["mailbox a exists"]);
    assert!(told.is_all_taken());
    assert_eq!(
        told.all_notes(),
        [
            "line 5: the root, which is no mailbox",
            "line 1: the first of 4 without a mailbox, not read: a OK [CAPABILITY IMAP4rev1] in",
        ]
    );
    for answer in ["", "a OK\r\n", "* FLAGS ()\r\n", "mailbox a exists\n"] {
        assert!(read_answer(answer.as_bytes(), &mut Told::default()).is_none(), "{answer}");
    }
}

/// Subscriptions alone: nothing is known to exist, and that is said.
#[test]
fn subscriptions_alone() {
    let Came { lines, told } = of_answer("* LSUB () \".\" a.b\r\n");
    assert_eq!(lines, ["mailbox a/b subscribed"]);
    assert!(told.is_all_taken());
    assert_eq!(
        told.all_notes(),
        ["the answer: it has no LIST line, so no mailbox is known to exist"]
    );
}

/// A server that spells INBOX in its own way: respelled, and told.
#[test]
fn inbox() {
    let answer = "* LIST () \".\" Inbox\r\n* LIST () \".\" inbox.Sent\r\n* LSUB () \".\" INBOX\r\n\
                  * LIST () \".\" inboxes\r\n";
    let Came { lines, told } = of_answer(answer);
    assert_eq!(
        lines,
        ["mailbox INBOX exists subscribed", "mailbox INBOX/Sent exists", "mailbox inboxes exists"]
    );
    assert!(told.is_all_taken());
    assert_eq!(
        told.all_notes(),
        [
            "line 1: Inbox: spelled INBOX in its first level",
            "line 2: inbox.Sent: spelled INBOX in its first level",
        ]
    );
}

/// Modified UTF-7 stays as it is, and is decoded in a comment.
#[test]
fn modified_utf7() {
    let Came { lines, .. } = of_answer("* LIST () \"/\" \"Entw&APw-rfe\"\r\n");
    assert_eq!(lines, ["# Entw&APw-rfe = \"Entwürfe\"", "mailbox Entw&APw-rfe exists"]);
}

/// Answers with bytes changed, added and taken away: whatever is kept passes, and what is lost is told.
#[test]
fn damaged_answers() {
    const ANSWER: &[u8] = b"* LIST (\\Marked \\Sent) \".\" {3}\r\na.b (\"CHILDINFO\" (\"SUBSCRIBED\"))\r\n\
                            S: * LSUB () \"/\" \"a \\\"b\"\r\n* 1 FETCH {2}\r\nxy\r\n* LIST () NIL inbox\n";
    const BYTES: &[u8] = b"*{}()\"\\/.% \r\n09aI\x00\x7F\xFF";
    let mut seed = 7_u32;
    let mut next = |count: usize| {
        seed = seed.wrapping_mul(1_664_525).wrapping_add(1_013_904_223);
        seed as usize / 65_536 % count
    };
    for _ in 0..20_000 {
        let mut answer = ANSWER.to_vec();
        for _ in 0..1 + next(4) {
            let (at, byte) = (next(answer.len()), BYTES[next(BYTES.len())]);
            match next(3) {
                0 => answer[at] = byte,
                1 => answer.insert(at, byte),
                _ => drop(answer.remove(at)),
            }
        }
        let mut told = Told::default();
        if let Some(found) = read_answer(&answer, &mut told) {
            let Came { lines, told } = came(&found, told, Room::Program);
            assert!(
                !lines.is_empty()
                    || !told.all_left_out().is_empty()
                    || !told.all_notes().is_empty()
            );
        }
    }
}
