//! Refusals 1 to 4 with the row, entry or place that is wrong, by the lines of the session.

use session::Form;

use crate::common::printed;

/// The explanation of the one refusal of a session.
fn explained(source: &str) -> String {
    let text = printed(source, Form::Text);
    let mut lines = text.lines().skip_while(|line| !line.starts_with("Explained  "));
    let line = lines.next().unwrap_or_else(|| panic!("no explanation in\n{text}"));
    assert_eq!(lines.next(), Some("           (explained by the second program, not proved)"));
    line["Explained  ".len()..].to_string()
}

#[test]
fn rows() {
    let tables = [
        (
            "# INBOX\nmailbox Inbox/x exists\n",
            "line 2: 'Inbox/x': a first level that equals INBOX is spelled INBOX",
        ),
        (
            "mailbox a exists\n\nmailbox a exists\n",
            "line 3: 'a': names strictly ascend by bytes (beside line 1: 'a')",
        ),
        (
            "mailbox a/b exists\nmailbox a exists noinferiors\n",
            "line 1: 'a/b': no row lies below a row with no inferiors (beside line 2: 'a')",
        ),
        (
            "order as-given\nmailbox b exists\nmailbox a exists\n",
            "line 3: 'a': names strictly ascend by bytes (beside line 2: 'b')",
        ),
        (
            "mailbox \"b\\\\x80\" 0000\n",
            "line 1: 'b\\\\x80': a row that does not exist has flags exactly 0002",
        ),
        ("frame 4D0001FF01610001\n", "line 1: bytes 0001: rows fill the table exactly"),
        (
            "frame 4D0001\nframe 4DFF0161\nframe 4D0000000162\n",
            "line 3: 'b': a row that does not exist has flags exactly 0002",
        ),
    ];
    for (rows, expected) in tables {
        assert_eq!(explained(&format!("{rows}command a NAMESPACE\n")), expected, "{rows}");
        assert_eq!(explained(&format!("{rows}walk\n")), expected, "{rows}");
    }
    // The same in a file of frames.
    assert_eq!(
        explained("570000\n4D0001FF05696E626F78\n570000\n"),
        "line 2: 'inbox': a first level that equals INBOX is spelled INBOX"
    );
}

#[test]
fn entries() {
    let lists = [
        (
            "namespace shared \"a\" NIL\nnamespace personal \"\" \"/\"\n",
            "line 2: '': classes do not descend (beside line 1: 'a')",
        ),
        (
            "namespace personal \"\u{e9}\" NIL\n",
            "line 1: '\\xC3\\xA9': prefix bytes are 20 to 7E (hex)",
        ),
        ("frame 4E00\n", "line 1: bytes 00: entries fill the list exactly"),
    ];
    for (entries, expected) in lists {
        assert_eq!(explained(&format!("{entries}command a NAMESPACE\n")), expected, "{entries}");
    }
    let no_room = "frame 4E00FF".to_string() + &"61".repeat(255) + "00\n";
    assert_eq!(
        explained(&no_room.repeat(4)),
        "no room: 774 of 1024 bytes are taken, and this has 258"
    );
}

#[test]
fn places_of_lines() {
    let commands = [
        ("command a LIST \"\" (%", "the end of the command, after 12 bytes: a space or a closing parenthesis is expected"),
        ("command a LIST \"\"  %", "byte 11 of the command, ' ': a pattern is a quoted string, a literal or a run of atom bytes, ] % and *"),
        ("frame 4300610A0D0A", "byte 2 of the command, '\\x0A': a line holds bytes 01 to 7F (hex), without CR and LF"),
        ("frame 430061", "the end of the command, after 1 bytes: a line ends with CR LF"),
        ("command a LIST {1}\n+ x{1}\n+ y", "byte 14 of the command, '{': one space is expected"),
    ];
    for (command, expected) in commands {
        assert_eq!(explained(&format!("{command}\n")), expected, "{command}");
    }
}

/// Names of edits: the place, the rule, and the row below which a name would lie, before an edit that is
/// accepted and after one.
#[test]
fn names_of_edits() {
    let rows = "mailbox INBOX exists noinferiors\nmailbox a exists\n";
    let below =
        "byte 13 of the command, '\"': no name lies below a row with no inferiors (beside 'INBOX')";
    let edits = [
        ("subscribe inbox/x\n", below),
        ("subscribe A\nsubscribe Inbox/x/y\n", below),
        ("subscribe \"\"\n", "byte 13 of the command, '\"': a name has 1 to 200 bytes"),
        (
            "command a SUBSCRIBE {1}\n+ %\n",
            "byte 13 of the command, '{': name bytes are 20 to 7E (hex), without % and *",
        ),
    ];
    for (edit, expected) in edits {
        assert_eq!(explained(&format!("{rows}{edit}")), expected, "{edit}");
    }
    let full: String = (0..512).map(|number| format!("mailbox {number:03} exists\n")).collect();
    assert_eq!(
        explained(&(full + "subscribe x\n")),
        "byte 13 of the command, '\"': a row is inserted where there are under 512"
    );
}

/// Who sent what is refused with 16, and what is hidden from the reader that edits.
#[test]
fn readers() {
    let sources = [
        ("reader 9\ncommand\n", "it comes from reader 9: a reader is 0 to 7"),
        ("mailbox a 0000\nreader 255\nwalk 9\n", "it comes from reader 255: a reader is 0 to 7"),
        (
            "reader 1\ncommand tag unsubscribe x\n",
            "it comes from reader 1: byte 5 of the command, 'u': edits are allowed to reader 0 only",
        ),
        (
            "mailbox a exists noinferiors readers 1\nsubscribe a/b\n",
            "byte 13 of the command, '\"': no name lies below a row with no inferiors (beside 'a', \
             which is hidden from reader 0)",
        ),
    ];
    for (source, expected) in sources {
        assert_eq!(explained(source), expected, "{source}");
    }
}

/// What is hidden is told beside LIST, LSUB and walks that were answered; of many rows the first ones.
#[test]
fn hidden_rows() {
    let hidden = |source: &str| {
        let text = printed(source, Form::Text);
        text.lines().filter(|line| line.starts_with("Hidden")).count()
    };
    let rows = "mailbox a exists readers 1,2\nmailbox b exists\n";
    for (sent, times) in [
        ("command a LIST \"\" *", 1),
        ("command a LSUB \"\" *", 1),
        ("walk", 1),
        ("reader 1\nwalk", 0),
        ("command a NAMESPACE", 0),
        ("command a LIST \"\" \"\"", 0),
        ("unsubscribe x", 0),
        ("walk 9", 0),
        ("reader 9\nwalk", 0),
    ] {
        assert_eq!(hidden(&format!("{rows}{sent}\n")), times, "{sent}");
    }
    let many: String =
        (0..20).map(|number| format!("mailbox {number:02} exists readers 7\n")).collect();
    let text = printed(many + "walk\n", Form::Text);
    let told =
        "Hidden     from reader 0, 20 of 20 rows: 00, 01, 02, 03, 04, 05, 06, 07, 08, 09, 10, 11 \
                and 8 more\n";
    assert!(text.contains(told), "{text}");
}

/// A row after an edit that was accepted is a bad frame, and one after a refused edit is kept.
#[test]
fn rows_after_edits() {
    let rule = "no row is added after the first SUBSCRIBE or UNSUBSCRIBE that was OK";
    for source in [
        "unsubscribe x\nmailbox a exists\n",
        "mailbox a exists\nsubscribe a\nframe 4D\n",
        "4300612053554253435249424520780D0A\n4D0001FF0161\n",
    ] {
        assert_eq!(explained(source), rule, "{source}");
    }
    let refused = "mailbox a exists\nsubscribe a//b\nexpect 14\nmailbox b exists\nwalk\n";
    let text = printed(refused, Form::Text);
    assert!(text.contains("Mailbox    b                            exists\n\nWalk"), "{text}");
    // What comes after a row that is refused is answered as it should be.
    let text = printed("subscribe a\nmailbox b exists\nexpect 13\nwalk\n", Form::Text);
    assert!(text.ends_with("Answer     1 command sent, 1 mailbox found\n           a\n"), "{text}");
}

/// What is answered has no explanation.
#[test]
fn nothing_to_explain() {
    let text = printed("mailbox a exists\nwalk\ncommand b NAMESPACE\n", Form::Text);
    assert!(text.contains("Answer") && !text.contains("Explained"), "{text}");
}
