//! The line writer and the line reader.

use second::{read_line, write_line, Criteria, Line, Refusal};

const NOSELECT: u16 = 1 << 2;
const SUBSCRIBED: u16 = 1 << 5;
const ALL_SIXTEEN: u16 = 0xFFFF;
const ROOM: usize = 1_000;

/// Attributes, name, CHILDINFO, and the line without its CR LF.
const LINES: [(u16, &str, Criteria, &str); 10] = [
    (0, "Foo", Criteria::NONE, r#"* LIST () "/" "Foo""#),
    (NOSELECT, "", Criteria::NONE, r#"* LIST (\Noselect) "/" """#),
    (NOSELECT, "Foo", Criteria::NONE, r#"* LIST (\Noselect) "/" "Foo""#),
    (0x8001, "a b", Criteria::NONE, r#"* LIST (\Marked \HasNoChildren) "/" "a b""#),
    (0x0003, "x/inbox", Criteria::NONE, r#"* LIST (\Marked \Unmarked) "/" "x/inbox""#),
    (
        SUBSCRIBED,
        "INBOX",
        Criteria::SUBSCRIBED,
        r#"* LIST (\Subscribed) "/" "INBOX" ("CHILDINFO" ("SUBSCRIBED"))"#,
    ),
    (0, r#"q"\"#, Criteria::SUBSCRIBED, r#"* LIST () "/" "q\"\\" ("CHILDINFO" ("SUBSCRIBED"))"#),
    (0, "Foo", Criteria::SPECIAL_USE, r#"* LIST () "/" "Foo" ("CHILDINFO" ("SPECIAL-USE"))"#),
    (0, "Foo", Criteria::BOTH, r#"* LIST () "/" "Foo" ("CHILDINFO" ("SUBSCRIBED" "SPECIAL-USE"))"#),
    (
        ALL_SIXTEEN,
        "z",
        Criteria::NONE,
        concat!(
            r#"* LIST (\Marked \Unmarked \Noselect \NoInferiors \Remote \Subscribed"#,
            r#" \NonExistent \All \Archive \Drafts \Flagged \Junk \Sent \Trash"#,
            r#" \HasChildren \HasNoChildren) "/" "z""#
        ),
    ),
];

#[test]
fn written_and_read_back() {
    for (attrs, name, childinfo, text) in LINES {
        let line = format!("{text}\r\n");
        let mut out = [b'.'; ROOM];
        assert_eq!(write_line(attrs, name.as_bytes(), childinfo, &mut out), Ok(line.len()));
        assert_eq!(out[..line.len()], *line.as_bytes(), "{text}");
        assert!(out[line.len()..].iter().all(|&byte| byte == b'.'), "{text}");
        let parts = Line { attrs, name: name.as_bytes().to_vec(), childinfo };
        assert_eq!(read_line(line.as_bytes()), Ok(parts), "{text}");
    }
}

#[test]
fn every_set_of_attributes_and_criteria_comes_back() {
    for attrs in 0..=ALL_SIXTEEN {
        for childinfo in every_set_of_criteria() {
            let mut out = [0; ROOM];
            let length = write_line(attrs, b"Foo/Bar", childinfo, &mut out).expect("a line");
            let parts = Line { attrs, name: b"Foo/Bar".to_vec(), childinfo };
            assert_eq!(read_line(&out[..length]), Ok(parts));
        }
    }
}

/// Bit 0 is SUBSCRIBED and bit 1 is SPECIAL-USE; no other bit stands for a criterion.
#[test]
fn criteria_as_bits() {
    let sets = [Criteria::NONE, Criteria::SUBSCRIBED, Criteria::SPECIAL_USE, Criteria::BOTH];
    assert!(every_set_of_criteria().eq(sets));
    for (bits, set) in (0..).zip(sets) {
        assert_eq!(set.bits(), bits);
    }
}

fn every_set_of_criteria() -> impl Iterator<Item = Criteria> {
    (0..=u8::MAX).filter_map(Criteria::from_bits)
}

/// 12 comes before 9, and neither changes a byte.
#[test]
fn refused_parts() {
    let long = "n".repeat(201);
    let deep = "a/".repeat(16) + "a";
    let parts: [(u16, &str, Criteria); 13] = [
        (0, "", Criteria::NONE),
        (NOSELECT, "", Criteria::SUBSCRIBED),
        (NOSELECT, "", Criteria::SPECIAL_USE),
        (NOSELECT, "", Criteria::BOTH),
        (NOSELECT | SUBSCRIBED, "", Criteria::NONE),
        (0, "inbox", Criteria::NONE),
        (0, "Inbox/x", Criteria::NONE),
        (0, "a//b", Criteria::NONE),
        (0, "a%", Criteria::NONE),
        (0, "a%", Criteria::SPECIAL_USE),
        (0, "a\t", Criteria::NONE),
        (0, &long, Criteria::NONE),
        (0, &deep, Criteria::NONE),
    ];
    for (attrs, name, childinfo) in parts {
        for room in [0, ROOM] {
            let mut out = vec![b'.'; room];
            assert_eq!(
                write_line(attrs, name.as_bytes(), childinfo, &mut out),
                Err(Refusal::Line),
                "{name}"
            );
            assert_eq!(out, vec![b'.'; room], "{name}");
        }
    }
}

#[test]
fn short_buffers() {
    for (attrs, name, childinfo, text) in LINES {
        let mut out = vec![b'.'; text.len() + "\r\n".len() - 1];
        assert_eq!(
            write_line(attrs, name.as_bytes(), childinfo, &mut out),
            Err(Refusal::AnswerRoom),
            "{text}"
        );
        assert!(out.iter().all(|&byte| byte == b'.'), "{text}");
    }
}

/// Texts that are no LIST line, or not byte for byte as the writer gives it.
const REFUSED_LINES: &[&str] = &[
    "",
    "\r\n",
    "* LIST () \"/\" \"Foo\"",
    "* LIST () \"/\" \"Foo\"\n",
    "* LIST () \"/\" \"Foo\"\r\n\r\n",
    "* LIST () \"/\" \"Foo\" \r\n",
    "* list () \"/\" \"Foo\"\r\n",
    "* LIST  () \"/\" \"Foo\"\r\n",
    "* LIST () \".\" \"Foo\"\r\n",
    "* LIST () NIL \"Foo\"\r\n",
    "* LIST () \"/\" Foo\r\n",
    "* LIST () \"/\" \"\"\r\n",
    "* LIST () \"/\" \"Foo\r\n",
    "* LIST () \"/\" \"F\\oo\"\r\n",
    "* LIST () \"/\" \"Foo\\\"\r\n",
    "* LIST () \"/\" \"inbox\"\r\n",
    "* LIST () \"/\" \"Foo/\"\r\n",
    "* LIST () \"/\" \"Foo%\"\r\n",
    "* LIST (\\Subscribed \\Remote) \"/\" \"Foo\"\r\n",
    "* LIST (\\Remote \\Remote) \"/\" \"Foo\"\r\n",
    "* LIST (\\Remote  \\Subscribed) \"/\" \"Foo\"\r\n",
    "* LIST (\\Remote ) \"/\" \"Foo\"\r\n",
    "* LIST ( \\Remote) \"/\" \"Foo\"\r\n",
    "* LIST (\\remote) \"/\" \"Foo\"\r\n",
    "* LIST (\\Remote\\Subscribed) \"/\" \"Foo\"\r\n",
    "* LIST (\\HasChild) \"/\" \"Foo\"\r\n",
    "* LIST (\\Noselect \\Remote) \"/\" \"\"\r\n",
    "* LIST (\\Noselect) \"/\" \"\" (\"CHILDINFO\" (\"SUBSCRIBED\"))\r\n",
    "* LIST () \"/\" \"Foo\" (\"CHILDINFO\" (\"REMOTE\"))\r\n",
    "* LIST () \"/\" \"Foo\" (CHILDINFO (\"SUBSCRIBED\"))\r\n",
    "* LIST () \"/\" \"Foo\"  (\"CHILDINFO\" (\"SUBSCRIBED\"))\r\n",
    "* LIST (\\Noselect) \"/\" \"\" (\"CHILDINFO\" (\"SPECIAL-USE\"))\r\n",
    "* LIST () \"/\" \"Foo\" (\"CHILDINFO\" ())\r\n",
    "* LIST () \"/\" \"Foo\" (\"CHILDINFO\" (\"SPECIAL-USE\" \"SUBSCRIBED\"))\r\n",
    "* LIST () \"/\" \"Foo\" (\"CHILDINFO\" (\"SUBSCRIBED\"  \"SPECIAL-USE\"))\r\n",
    "* LIST () \"/\" \"Foo\" (\"CHILDINFO\" (\"SUBSCRIBED\"\"SPECIAL-USE\"))\r\n",
    "* LIST () \"/\" \"Foo\" (\"CHILDINFO\" (\"SUBSCRIBED\" \"SUBSCRIBED\"))\r\n",
    "* LIST () \"/\" \"Foo\" (\"CHILDINFO\" (\"SUBSCRIBED\" \"REMOTE\"))\r\n",
    "* LIST () \"/\" \"Foo\" (\"CHILDINFO\" (\"SUBSCRIBED\" ))\r\n",
    "* LIST () \"/\" \"Foo\" (\"CHILDINFO\" ( \"SPECIAL-USE\"))\r\n",
    "* LIST () \"/\" \"Foo\" (\"CHILDINFO\" (\"special-use\"))\r\n",
    "* LIST () \"/\" \"Foo\" (\"CHILDINFO\" (SPECIAL-USE))\r\n",
    "* LIST () \"/\" \"Foo\" (\"CHILDINFO\" (\"SPECIAL-USE\")\r\n",
    "* LIST () \"/\" \"Foo\" (\"CHILDINFO\" (\"SUBSCRIBED\")) (\"CHILDINFO\" (\"SPECIAL-USE\"))\r\n",
    "* NAMESPACE NIL NIL NIL\r\n",
    "w OK done\r\n",
];

#[test]
fn refused_lines() {
    for line in REFUSED_LINES {
        assert_eq!(read_line(line.as_bytes()), Err(Refusal::Line), "{line:?}");
    }
}
