//! Frames after edits (document 02, W6): what the program keeps, and what 4D, 4E and walks are then.

use second::frames::{hex_of, Answer, Program, COMMAND, ENTRY, ROW, TABLE_ROOM};
use second::rows::MAX_ROWS;
use second::{Record, Refusal, Store};

use crate::common::ALL;
use crate::program::{command_from, frame, output_of, BAD_FRAME};

/// A frame with a command of reader 0, its CR LF added.
fn command(text: &str) -> String {
    command_from(0, text)
}

fn answer(lines: &str) -> String {
    frame(0x41, lines.replace('|', "\r\n").as_bytes())
}

fn row(flags: u16, name: &str) -> Vec<u8> {
    [&flags.to_be_bytes(), &[ALL, name.len() as u8][..], name.as_bytes()].concat()
}

fn rows(rows: &[(u16, &str)]) -> String {
    rows.iter().map(|(flags, name)| frame(ROW, &row(*flags, name))).collect()
}

fn ok() -> String {
    answer("a OK done|")
}

/// "4D then is 13": whatever is behind it, from the first edit that is answered OK, also if it
/// changed no row.
#[test]
fn rows_after_an_accepted_edit() {
    let start = rows(&[(1, "a"), (3, "b"), (2, "c")]);
    for edit in [
        "a SUBSCRIBE a",
        "a SUBSCRIBE b",
        "a SUBSCRIBE c",
        "a SUBSCRIBE d",
        "a UNSUBSCRIBE a",
        "a UNSUBSCRIBE b",
        "a UNSUBSCRIBE c",
        "a UNSUBSCRIBE d",
        "a UNSUBSCRIBE \"\"",
        "a UNSUBSCRIBE a//b",
    ] {
        for behind in [row(1, "x"), vec![], vec![0], vec![0; 2_050]] {
            let input = format!("{start}{}{}", command(edit), frame(ROW, &behind));
            assert_eq!(output_of(&input), format!("{}{BAD_FRAME}", ok()), "{edit}");
        }
    }
    // An empty table too.
    let input = format!("{}{}", command("a UNSUBSCRIBE x"), frame(ROW, &row(1, "x")));
    assert_eq!(output_of(&input), format!("{}{BAD_FRAME}", ok()));
}

/// 13 comes before any question of room.
#[test]
fn rows_without_room_after_an_edit() {
    let long = |number: usize| row(1, &format!("{number:03}{}", "n".repeat(197)));
    let full: String = (0..80).map(|number| frame(ROW, &long(number))).collect();
    let more = frame(ROW, &long(80));
    assert_eq!(output_of(&format!("{full}{more}")), "5201\n");
    let edit = command("a SUBSCRIBE x");
    assert_eq!(output_of(&format!("{full}{edit}{more}")), format!("{}{BAD_FRAME}", ok()));
    assert_eq!(output_of(&format!("{full}{more}{edit}{more}")), format!("5201\n{}520D\n", ok()));
}

/// A refused edit changes nothing, and 4D goes on. Nor is any other command an edit.
#[test]
fn rows_after_refused_edits() {
    let list = command("a LIST \"\" *");
    let listed = answer("* LIST (\\NoInferiors) \"/\" \"a\"|* LIST () \"/\" \"b\"|a OK done|");
    for (text, number) in [
        ("a SUBSCRIBE", "04"),
        ("a SUBSCRIBED a", "05"),
        ("a SUBSCRIBE a%", "04"),
        ("a SUBSCRIBE \"\"", "0E"),
        ("a SUBSCRIBE a/b", "0E"),
    ] {
        let refused = format!("{}{}", rows(&[(0x11, "a")]), command(text));
        let input = format!("{refused}{}{list}", rows(&[(1, "b")]));
        assert_eq!(output_of(&input), format!("52{number}\n{listed}"), "{text}");
    }
    for text in ["a LIST \"\" x", "a LSUB \"\" x", "a LIST () \"\" \"\""] {
        let read = format!("{}{}", rows(&[(0x11, "a")]), command(text));
        let input = format!("{read}570000\n{}{list}", rows(&[(1, "b")]));
        assert_eq!(output_of(&input), format!("{}570001\n{listed}", ok()), "{text}");
    }
}

/// "4E goes on", and is looked at at the next command; a bad list refuses an edit, which is then
/// not accepted.
#[test]
fn entries_after_an_edit() {
    let edit = command("a SUBSCRIBE x");
    let (entry, bad_entry) = (frame(ENTRY, b"\x00\x00/"), frame(ENTRY, b"\x09"));
    let namespace = command("a NAMESPACE");
    let input = format!("{edit}{entry}{namespace}{bad_entry}{namespace}{edit}570000\n");
    let listed = answer("* NAMESPACE ((\"\" \"/\")) NIL NIL|a OK done|");
    assert_eq!(output_of(&input), format!("{}{listed}5202\n5202\n5700010178\n", ok()));
    let row = rows(&[(1, "a")]);
    assert_eq!(output_of(&format!("{bad_entry}{edit}{row}{edit}")), "5202\n5202\n");
}

/// An edit of rows that do not pass is 1, and they may be completed.
#[test]
fn edits_of_rows_that_do_not_pass() {
    let edit = command("a SUBSCRIBE a");
    let (half, rest) = (frame(ROW, b"\0\x01\xFF\x01"), frame(ROW, b"a"));
    let input = format!("{half}{edit}{rest}{edit}570000\n{half}");
    assert_eq!(output_of(&input), format!("5201\n{}5700010161\n520D\n", ok()));
    // More rows than records: without a name, they do not pass either.
    let many = frame(ROW, &b"\0\x01\xFF\0".repeat(300)).repeat(2);
    assert_eq!(output_of(&format!("{many}{edit}")), "5201\n");
}

/// Commands and walks read over what the edits left.
#[test]
fn commands_and_walks_after_edits() {
    let input = [
        rows(&[(1, "Customers"), (3, "INBOX")]),
        "570000\n".to_string(),
        command("a SUBSCRIBE Customers/ABC"),
        command("a UNSUBSCRIBE inbox"),
        "570000\n".to_string(),
        command("a LSUB \"\" %"),
        command("a UNSUBSCRIBE Customers/ABC"),
        "570000\n".to_string(),
        command("a LIST (SUBSCRIBED) \"\" *"),
    ];
    let found = |count: u8, names: &str| frame(0x57, &[&[0, count], names.as_bytes()].concat());
    let output = [
        found(1, "\u{5}INBOX"),
        ok(),
        ok(),
        found(2, "\rCustomers/ABC"),
        answer("* LSUB (\\Noselect) \"/\" \"Customers\"|a OK done|"),
        ok(),
        found(1, ""),
        ok(),
    ];
    assert_eq!(output_of(&input.concat()), output.concat());
}

fn text_of(line: &str) -> Vec<u8> {
    hex_of(&[&[COMMAND, 0], line.as_bytes(), b"\r\n"].concat())
}

/// "The program keeps 512 records, names at first in row order without gaps from the start of 16,384
/// bytes"; spare records and unused bytes are zero. They are made at the first accepted edit.
#[test]
fn what_the_program_keeps() {
    let mut program = Program::default();
    for (flags, name) in [(1, "Foo"), (2, "Foo/Bar"), (0x2001, "Sent")] {
        program.store_row(&row(flags, name)).expect("room");
    }
    assert_eq!(program.answer(&text_of("a SUBSCRIBE \"\"")), refused(Refusal::UnlawfulName));
    assert_eq!(program.store, None);
    assert_eq!(program.answer(&text_of("a UNSUBSCRIBE x")), done());
    let record = |flags, start, len| Record { flags, start, len, readers: ALL };
    let rows = [record(1, 0, 3), record(2, 3, 7), record(0x2001, 10, 4)];
    assert_eq!(program.store, Some(store(&rows, b"FooFoo/BarSent")));
    // A removal leaves a gap, which the next name that fits takes.
    assert_eq!(program.answer(&text_of("a UNSUBSCRIBE Foo/Bar")), done());
    let rows = [record(1, 0, 3), record(0x2001, 10, 4)];
    assert_eq!(program.store, Some(store(&rows, b"Foo\0\0\0\0\0\0\0Sent")));
    assert_eq!(program.answer(&text_of("a SUBSCRIBE inbox/x")), done());
    assert_eq!(program.answer(&text_of("a SUBSCRIBE Drafts/x")), done());
    let rows = [record(2, 14, 8), record(1, 0, 3), record(2, 3, 7), record(0x2001, 10, 4)];
    assert_eq!(program.store, Some(store(&rows, b"FooINBOX/xSentDrafts/x")));
}

fn store(rows: &[Record], names: &[u8]) -> Store {
    let (mut records, mut area) = (rows.to_vec(), names.to_vec());
    records.resize(512, Record::default());
    area.resize(16_384, 0);
    Store::counted(records, rows.len(), area)
}

fn done() -> Option<Answer> {
    Some(Answer::Lines(b"a OK done\r\n".to_vec()))
}

fn refused(refusal: Refusal) -> Option<Answer> {
    Some(Answer::Refused(refusal))
}

/// 512 rows: 15 for one more before any accepted edit too, which leaves 4D as it was.
#[test]
fn the_most_rows() {
    let mut program = Program::default();
    for number in 0..MAX_ROWS {
        program.store_row(&row(2, &format!("{number:03}"))).expect("room");
    }
    assert_eq!(program.answer(&text_of("a SUBSCRIBE x")), refused(Refusal::NoRoom));
    assert_eq!(program.store_row(b""), Ok(()));
    for (line, expected) in [
        ("a SUBSCRIBE 001", done()),
        ("a SUBSCRIBE x", refused(Refusal::NoRoom)),
        ("a UNSUBSCRIBE 001", done()),
        ("a SUBSCRIBE x", done()),
        ("a SUBSCRIBE 001", refused(Refusal::NoRoom)),
    ] {
        assert_eq!(program.answer(&text_of(line)), expected, "{line}");
    }
}

/// 16,384 name bytes, all of them used: more than could be stored packed.
#[test]
fn all_name_bytes() {
    let mut program = Program::default();
    let name = |number: usize| format!("{number:03}{}", "n".repeat(197));
    (0..80).for_each(|number| program.store_row(&row(2, &name(number))).expect("room"));
    assert_eq!(program.table.len(), 80 * 204);
    assert!(program.store_row(&[0; TABLE_ROOM - 80 * 204 + 1]).is_err());
    for (line, expected) in [
        (format!("a SUBSCRIBE {}", name(80)), done()),
        (format!("a SUBSCRIBE {}", "x".repeat(185)), refused(Refusal::NoRoom)),
        (format!("a SUBSCRIBE {}", "x".repeat(184)), done()),
        ("a SUBSCRIBE y".to_string(), refused(Refusal::NoRoom)),
        ("a SUBSCRIBE \"\"".to_string(), refused(Refusal::UnlawfulName)),
        (format!("a UNSUBSCRIBE {}", name(7)), done()),
        (format!("a SUBSCRIBE {}", "y".repeat(200)), done()),
        ("a SUBSCRIBE z".to_string(), refused(Refusal::NoRoom)),
    ] {
        assert_eq!(program.answer(&text_of(&line)), expected, "{line}");
    }
    let store = program.store.expect("a store");
    assert_eq!((store.count, store.records[81].start), (82, 7 * 200));
    assert!(store.area.iter().all(|&byte| byte != 0));
}
