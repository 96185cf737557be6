//! Readers in frames.

use second::frames::{hex_of, Frame, Program, ANSWER, COMMAND, ROW};
use second::Record;

use crate::program::{command_from, frame, output_of, BAD_FRAME};

fn answer(lines: &str) -> String {
    frame(ANSWER, lines.replace('|', "\r\n").as_bytes())
}

/// Rows, each with flags and readers.
fn rows(rows: &[(u16, u8, &str)]) -> String {
    let row = |&(flags, readers, name): &(u16, u8, &str)| {
        [&flags.to_be_bytes()[..], &[readers, name.len() as u8], name.as_bytes()].concat()
    };
    rows.iter().map(|one| frame(ROW, &row(one))).collect()
}

/// "Frames 43 and 57 carry the reader as their first byte (none: 13, as is 57 without exactly one byte
/// more)". `4300` is an empty command. A frame that is 13 is 13 first.
#[test]
fn first_bytes() {
    let shape = "5203\n";
    let reader = "5210\n";
    for (frame, output) in [
        ("43", BAD_FRAME),
        ("4300", shape),
        ("4307", shape),
        ("4308", reader),
        ("43FF", reader),
        ("43ff0D0A", reader),
        ("4308 ", BAD_FRAME),
        ("430", BAD_FRAME),
        ("57", BAD_FRAME),
        ("5700", BAD_FRAME),
        ("5708", BAD_FRAME),
        ("570000", "570001\n"),
        ("570700", "570001\n"),
        ("570004", "5206\n"),
        ("570800", reader),
        ("570804", reader),
        ("57FFFF", reader),
        ("57000000", BAD_FRAME),
        ("57080000", BAD_FRAME),
    ] {
        assert_eq!(output_of(&format!("{frame}\n")), output, "{frame}");
    }
    // 16 comes before 1 and before 2, and 13 before 16.
    let bad = frame(ROW, b"\0") + &frame(0x4E, b"\x09");
    let input = format!("{bad}{}570800\n5708\n{}", command_from(8, ""), command_from(7, ""));
    assert_eq!(output_of(&input), format!("{reader}{reader}{BAD_FRAME}5201\n"));
}

/// "the frame limit becomes 4,102 digits": a reader and the longest line.
#[test]
fn the_longest_line() {
    let tag = "t".repeat(2_048 - " NAMESPACE\r\n".len());
    let namespaces = answer(&format!("* NAMESPACE NIL NIL NIL|{tag} OK done|"));
    assert_eq!(output_of(&command_from(3, &format!("{tag} NAMESPACE"))), namespaces);
    assert_eq!(output_of(&command_from(3, &format!("{tag}t NAMESPACE"))), "5203\n");
    assert_eq!(output_of(&command_from(9, &format!("{tag}t NAMESPACE"))), "5210\n");
    assert_eq!(output_of(&command_from(9, &format!("{tag}tt NAMESPACE"))), BAD_FRAME);
}

/// Frames are written as they are read.
#[test]
fn frames_encoded() {
    for text in ["43", "4305", "430561", "5703", "570306", "4D", "4DFF00", "4E00"] {
        match Frame::decode(text.as_bytes()) {
            Ok(frame) => assert_eq!(frame.encode(), text.as_bytes()),
            Err(_) => assert!(["43", "5703"].contains(&text), "{text}"),
        }
    }
}

/// Each command and each walk has its own reader.
#[test]
fn readers_in_turn() {
    let table = rows(&[(3, 0x01, "Foo"), (3, 0x0A, "Foo/Bar"), (1, 0xFF, "INBOX")]);
    let list = "a LIST \"\" %";
    let input = [
        table,
        command_from(0, list),
        command_from(3, list),
        command_from(2, list),
        "570000\n570300\n570200\n".to_string(),
        command_from(3, "a SUBSCRIBE INBOX"),
        command_from(0, "a SUBSCRIBE INBOX"),
        "570200\n".to_string(),
    ];
    let inbox = "* LIST () \"/\" \"INBOX\"|a OK done|";
    let output = [
        answer(&format!("* LIST () \"/\" \"Foo\"|{inbox}")),
        answer(&format!("* LIST (\\NonExistent \\HasChildren) \"/\" \"Foo\"|{inbox}")),
        answer(inbox),
        "57000103466F6F\n57000207466F6F2F426172\n570001\n5210\n".to_string(),
        answer("a OK done|"),
        "57000105494E424F58\n".to_string(),
    ];
    assert_eq!(output_of(&input.concat()), output.concat());
}

/// The records that the program keeps have the readers of the packed rows; a refused edit of another
/// reader makes it keep none.
#[test]
fn what_the_program_keeps() {
    let mut program = Program::default();
    program.store_row(b"\0\x01\x05\x03Foo\0\x02\0\x03Moo").expect("room");
    let line =
        |reader: u8, text: &str| hex_of(&[&[COMMAND, reader], text.as_bytes(), b"\r\n"].concat());
    program.answer(&line(2, "a SUBSCRIBE Foo"));
    assert_eq!(program.store, None);
    assert!(program.store_row(b"\0\x01\xFF\x03Zoo").is_ok());
    program.answer(&line(0, "a SUBSCRIBE New"));
    let store = program.store.expect("a store");
    let record = |flags, start, readers| Record { flags, start, len: 3, readers };
    let kept = [record(1, 0, 5), record(2, 3, 0), record(2, 9, 0xFF), record(1, 6, 0xFF)];
    assert_eq!(store.records[..4], kept);
    assert_eq!((store.count, store.records[4]), (4, Record::default()));
}
