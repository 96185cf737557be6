//! The night of Customers/ABC, called from Rust.

mod common;

use common::{Lent, SPARE};
use luspemaro::{
    check_namespaces, check_records, check_table, collect, collect_packed, match_steps, matches,
    put_go_on, read_line, write_line, Answered, Criteria, Event, Feeder, Reader, Record, Records,
    Refusal, Summary, WalkRefusal, Walked, READERS_ALL,
};

/// Flags 0003, all readers, length 13, the name.
const PACKED: &[u8] = b"\0\x03\xFF\x0DCustomers/ABC";
/// The same mailbox; the second record is spare.
const RECORDS: [Record; 2] = [
    Record { flags: 3, start: 2, len: 13, readers: READERS_ALL },
    Record { flags: 9, start: 9, len: 9, readers: 9 },
];
/// What an edit inserts.
const INSERTED: Record = Record { flags: 2, start: 0, len: 2, readers: READERS_ALL };
const AREA: [u8; 16] = *b"%%Customers/ABC%";
const SUMMARY: [Summary; 2] = [Summary(0), SPARE];
const TABLE: Records = Records { records: &RECORDS, count: 1, area: &AREA, summary: &SUMMARY };
const OK: &[u8] = b"a OK done\r\n";
const LINE: &[u8] =
    b"* LIST (\\NonExistent) \"/\" \"Customers\" (\"CHILDINFO\" (\"SUBSCRIBED\"))\r\n";
const NON_EXISTENT: u16 = 1 << 6;

#[test]
fn checks_and_matches() {
    assert!(check_table(PACKED) && !check_table(&PACKED[1..]));
    assert!(check_records(TABLE) && !check_records(Records { count: 3, ..TABLE }));
    assert!(!check_records(Records { summary: &[SPARE; 2], ..TABLE }));
    assert!(check_namespaces(b"") && !check_namespaces(b"\x03\0/"));
    assert!(matches(b"C%/*", b"Customers/ABC") && !matches(b"C%", b"Customers/ABC"));
    assert_eq!(match_steps(b"Customers", b"Customers"), 11);
    assert!((1..=5 * 14).contains(&match_steps(b"C%/*", b"Customers/ABC")));
}

fn lent() -> Lent {
    Lent::new(&RECORDS, 1, &AREA)
}

/// The answer to a command of reader 0, and whether it changed a row.
fn answer(table: &mut Lent, line: &[u8], room: usize) -> Result<(Vec<u8>, bool), Refusal> {
    let mut out = vec![b'.'; room];
    match table.answer(0, line, &mut out) {
        Ok(Answered { length, changed, .. }) => {
            assert!(out[length..].iter().all(|&byte| byte == b'.'));
            out.truncate(length);
            Ok((out, changed))
        }
        Err(refusal) => {
            assert!(out.iter().all(|&byte| byte == b'.'));
            Err(refusal)
        }
    }
}

#[test]
fn an_answer_and_refusals() {
    let command = b"a LIST (SUBSCRIBED RECURSIVEMATCH) \"\" \"%\"\r\n";
    let expected = [LINE, OK].concat();
    let mut table = lent();
    assert_eq!(answer(&mut table, command, 200), Ok((expected.clone(), false)));
    for (line, refusal) in [
        ("a LIST (RECURSIVEMATCH) \"\" %\r\n", Refusal::RecursiveMatchAlone),
        ("a NOOP\r\n", Refusal::Word),
        ("", Refusal::LineShape),
    ] {
        assert_eq!(answer(&mut table, line.as_bytes(), 200), Err(refusal), "{line}");
    }
    let refusal = answer(&mut table, command, expected.len() - 1).expect_err("a short buffer");
    assert_eq!(refusal.to_string(), "9: the answer, or the line, is longer than its buffer");
    assert_eq!(table, lent());
    let wrong = Lent { summary: vec![SPARE; 2], ..lent() };
    let short = Lent { summary: vec![], ..lent() };
    let past_the_area = Lent::new(&RECORDS, 1, &[b'C'; 9]);
    for before in [wrong, short, past_the_area] {
        let mut table = before.clone();
        assert_eq!(answer(&mut table, command, 200), Err(Refusal::Table));
        assert_eq!(table, before);
    }
}

/// Names subscribed and unsubscribed: flags, an insertion, a removal, and every byte of them.
#[test]
fn edits() {
    let mut table = lent();
    for (line, refusal) in [
        ("a SUBSCRIBE \"\"\r\n", Refusal::UnlawfulName),
        ("a SUBSCRIBE abc\r\n", Refusal::NoRoom),
        ("a SUBSCRIBE ab%\r\n", Refusal::Grammar),
        ("a SUBSCRIBED ab\r\n", Refusal::Word),
    ] {
        assert_eq!(answer(&mut table, line.as_bytes(), 200), Err(refusal), "{line}");
    }
    let short = answer(&mut table, b"a SUBSCRIBE ab\r\n", OK.len() - 1);
    assert_eq!(short, Err(Refusal::ShortBuffer));
    assert_eq!(table, lent());

    let (changed, kept) = (Ok((OK.to_vec(), true)), Ok((OK.to_vec(), false)));
    assert_eq!(answer(&mut table, b"a SUBSCRIBE ab\r\n", 200), changed);
    assert_eq!((table.count, &table.area[..]), (2, b"abCustomers/ABC%".as_slice()));
    assert_eq!(table.records, [RECORDS[0], INSERTED]);
    assert_eq!(answer(&mut table, b"a SUBSCRIBE ab\r\n", 200), kept);
    assert_eq!(answer(&mut table, b"a UNSUBSCRIBE Customers/ABC\r\n", 200), changed);
    let row = Record { flags: 1, ..RECORDS[0] };
    assert_eq!(table.records, [row, INSERTED]);
    assert_eq!(answer(&mut table, b"a UNSUBSCRIBE Customers/ABC\r\n", 200), kept);
    let (listed, _) = answer(&mut table, b"a LSUB \"\" *\r\n", 200).expect("an answer");
    assert_eq!(listed, [b"* LSUB () \"/\" \"ab\"\r\n", OK].concat());
    assert_eq!(answer(&mut table, b"a UNSUBSCRIBE ab\r\n", 200), changed);
    assert_eq!((table.count, &table.area[..]), (1, b"\0\0Customers/ABC%".as_slice()));
    assert_eq!(table.records, [row, Record::default()]);
    assert_eq!(table.summary, [Summary(0); 2]);
}

#[test]
fn the_walk() {
    let (mut scratch, mut found, mut pending) = ([1; 200], [1; 30], [1; 30]);
    let walked = collect(Reader::EDITOR, TABLE, 0, &mut scratch, &mut found, &mut pending);
    assert_eq!(walked, Ok(Walked { commands: 2, found: 14 }));
    assert_eq!((&found[..14], &pending[..10]), (&PACKED[3..], b"\x09Customers".as_slice()));
    assert!(scratch.iter().chain(&found[14..]).chain(&pending[10..]).all(|&byte| byte == 0));
    let (mut packed_found, mut packed_pending) = ([1; 30], [1; 30]);
    let (found_again, pending_again) = (&mut packed_found, &mut packed_pending);
    let packed =
        collect_packed(Reader::EDITOR, PACKED, 0, &mut scratch, found_again, pending_again);
    assert_eq!((packed, packed_found, packed_pending), (walked, found, pending));
    let refused = collect(Reader::EDITOR, TABLE, 4, &mut scratch, &mut found, &mut pending);
    assert_eq!(refused, Err(WalkRefusal::UnknownOption));
}

#[test]
fn lines() {
    let line = read_line(LINE).expect("a line");
    assert_eq!((line.attributes, line.childinfo), (NON_EXISTENT, Criteria::SUBSCRIBED));
    assert_eq!(line.name(), b"Customers");
    let mut out = [0; 200];
    let length = write_line(line.attributes, line.name(), line.childinfo, &mut out);
    assert_eq!(&out[..length.expect("a line")], LINE);
    assert_eq!(read_line(b"* LSUB () \"/\" \"x\"\r\n"), Err(Refusal::NotSuchLine));
}

#[test]
fn the_feeder() {
    let mut feeder = Feeder::default();
    assert_eq!(feeder.feed(b"a LIST \"\" {1}\r\n"), [Event::GoOn]);
    assert_eq!(feeder.feed(b"%\r"), []);
    let command = b"a LIST \"\" {1}\r\n%\r\n".to_vec();
    assert_eq!(feeder.feed(b"\n"), [Event::Command(command)]);
    assert!(feeder.is_first());
    let mut out = [0; 6];
    assert_eq!((put_go_on(&mut out, 0), &out), (6, b"+ go\r\n"));
}
