//! Sessions and frames: edits, rows that are refused, frames that are bad, tables that do not pass.

use crate::common::{body, file, frames, packed, run};

/// Compares a session with the rows that it is to have.
fn check(name: &str, session: &str, rows: &str, status: i32) -> String {
    let (a, b) = (file(&format!("{name}.session"), session), file(&format!("{name}.rows"), rows));
    let (given, text, told) = run(&[&a, &format!("session:{b}")]);
    assert_eq!(given, status, "{name}: {text}{told}");
    text
}

#[test]
fn edits_are_made() {
    let session = concat!(
        "mailbox a exists\nmailbox b exists subscribed\n",
        "subscribe inbox/x\nunsubscribe b\nsubscribe \"\"\nexpect 14\n",
        "reader 3\nsubscribe a\nexpect 16\ncommand a LIST \"\" *\nwalk\nwalk large\n",
    );
    let rows = "mailbox a exists\nmailbox b exists\nmailbox INBOX/x subscribed\n";
    let text = check("edits", session, rows, 0);
    assert!(text.contains("Note A     line 5: an edit that is refused with 14: "), "{text}");
    assert!(text.contains("Note A     line 8: an edit that is refused with 16: "), "{text}");
    assert!(
        text.contains("Note A     2 edits made, by the second program, not proved\n"),
        "{text}"
    );
}

/// What is refused as the session expects is no row of its table; what it only expects so is.
#[test]
fn expected_refusals() {
    let session =
        "mailbox a exists\nsubscribe a\nmailbox b exists\nexpect 13\nframe 4Dz\nexpect 13\n";
    check("expected", session, "mailbox a exists subscribed\n", 0);
    check("unmet", "mailbox a exists\nexpect 1\n", "mailbox a exists\n", 0);
}

/// Rows that are left out: never alike, to a table with the same rows and to itself.
#[test]
fn what_is_left_out() {
    let row = "mailbox a exists subscribed\n";
    let cases = [
        (
            "late",
            "mailbox a exists\nsubscribe a\nmailbox b exists\n",
            "line 3: a row after an edit",
        ),
        (
            "bad",
            "mailbox a exists subscribed\nframe 4D0001FF01\nframe 4D0\n",
            "line 3: a bad frame, which may have been a row: a frame has an even",
        ),
        (
            "rest",
            "mailbox a exists subscribed\nframe 4D0001FF02\n",
            "4 bytes after the last whole row",
        ),
    ];
    for (name, session, message) in cases {
        let text = check(name, session, row, 1);
        assert!(text.contains(&format!("Left out A {message}")), "{name}: {text}");
        let path = file(name, session);
        assert_eq!(run(&[&path, &path]).0, 1, "{name}");
    }
}

/// More rows than the program keeps are compared, and an edit after them is left out.
#[test]
fn more_than_the_program_keeps() {
    let rows: String =
        (0..100).map(|at| format!("mailbox {at:03}{} exists\n", "n".repeat(190))).collect();
    let text = check("long", &rows, &rows, 0);
    assert!(
        text.contains("Note A     over 16,384 bytes of rows, which ./run does not keep\n"),
        "{text}"
    );
    let text = check("long-edit", &format!("{rows}subscribe x\n"), &rows, 1);
    assert!(text.contains("Left out A line 101: an edit, not made: "), "{text}");
}

/// A table that does not pass is compared, and is never alike.
#[test]
fn tables_that_do_not_pass() {
    let text = check("twice", "mailbox a exists\nmailbox a subscribed\n", "mailbox a exists\n", 1);
    let differs = "Differs    a\n  in A     exists\n  in A     subscribed\n  in B     exists\n";
    assert!(text.contains(differs), "{text}");
    let fault =
        "Unlawful A a: names strictly ascend by bytes (beside a) (explained by the second program";
    assert!(text.contains(fault), "{text}");
    let bad = "mailbox 50% exists\n";
    let text = check("unlawful", bad, bad, 1);
    assert!(
        text.contains("Unlawful B 50%: name bytes are 20 to 7E (hex), without % and *"),
        "{text}"
    );
}

/// What `./serve --record` writes: rows, commands and their answers.
#[test]
fn records() {
    let rows = frames(&[("a", 1)]);
    let record = [&rows, b"430078204E4F4F500D0A\n5205\n412A\n".as_slice()].concat();
    let (a, b) = (file("record.frames", record), file("record.bin", packed(&[("a", 1)])));
    let (status, text, _) = run(&[&a, &b]);
    assert_eq!(status, 0, "{text}");
    assert!(text.contains("Note A     2 frames are recorded answers, not looked at\n"), "{text}");
}

#[test]
fn namespaces() {
    let list = "mailbox a exists\nnamespace personal \"\" \"/\"\n";
    let text = check("list", list, "mailbox a exists\n", 1);
    assert_eq!(
        body(&text),
        "Differs    the namespace list\n  in A     personal \"\" \"/\"\n  in B     (empty)"
    );
    check("same-list", list, list, 0);
    let (a, b) = (file("list-a.session", list), file("list-b.bin", packed(&[("a", 1)])));
    let (status, text, _) = run(&[&a, &b]);
    assert_eq!(status, 0);
    let note = "Note A     its namespace list is not compared: the other one has none\n";
    assert!(text.contains(note), "{text}");
}
