//! Who may see which mailbox, called from Rust.

mod common;

use common::Lent;
use luspemaro::{
    check_records, check_table, collect_from, collect_packed_from, Answered, Reader, Record,
    Records, Refusal, Summary, WalkRefusal, Walked, READERS_ALL,
};

const OK: &[u8] = b"a OK done\r\n";
const AREA: [u8; 22] = *b"Customers/ABCCustomers";
/// Customers, for reader 0, and Customers/ABC, for readers 0 and 3; both are subscribed.
const RECORDS: [Record; 3] = [
    Record { flags: 3, start: 13, len: 9, readers: 0b0001 },
    Record { flags: 3, start: 0, len: 13, readers: 0b1001 },
    Record { flags: 0, start: 0, len: 0, readers: 0 },
];
/// Below Customers one row exists, which is subscribed.
const SUMMARY: [Summary; 3] = [Summary(1 << 32 | 1), Summary(0), Summary(7)];
const TABLE: Records = Records { records: &RECORDS, count: 2, area: &AREA, summary: &SUMMARY };
const PACKED: &[u8] = b"\0\x03\x01\x09Customers\0\x03\x09\x0DCustomers/ABC";

/// The answer of a command, which leaves the rows as they are.
fn answer_of(reader: u8, line: &[u8]) -> Result<Vec<u8>, Refusal> {
    let before = Lent::new(&RECORDS, 2, &AREA);
    let (mut table, mut out) = (before.clone(), [b'.'; 200]);
    let answered = table.answer(reader, line, &mut out);
    assert_eq!(table, before);
    match answered {
        Ok(Answered { length, changed, .. }) => {
            assert!(!changed && out[length..].iter().all(|&byte| byte == b'.'));
            Ok(out[..length].to_vec())
        }
        Err(refusal) => {
            assert_eq!(out, [b'.'; 200]);
            Err(refusal)
        }
    }
}

#[test]
fn what_each_reader_lists() {
    let both =
        b"* LIST () \"/\" \"Customers\"\r\n* LIST () \"/\" \"Customers/ABC\"\r\na OK done\r\n";
    let one = b"* LIST () \"/\" \"Customers/ABC\"\r\na OK done\r\n";
    let level = b"* LIST (\\NonExistent \\HasChildren) \"/\" \"Customers\"\r\na OK done\r\n";
    for reader in 0..=Reader::MAX {
        let (all, top): (&[u8], &[u8]) = match reader {
            0 => (both, b"* LIST () \"/\" \"Customers\"\r\na OK done\r\n"),
            3 => (one, level),
            _ => (OK, OK),
        };
        assert_eq!(answer_of(reader, b"a LIST \"\" *\r\n").as_deref(), Ok(all), "{reader}");
        assert_eq!(answer_of(reader, b"a LIST \"\" %\r\n").as_deref(), Ok(top), "{reader}");
    }
}

#[test]
fn what_each_reader_finds() {
    for reader in 0..=Reader::MAX {
        let expected = match reader {
            0 => Walked { commands: 2, found: 24 },
            3 => Walked { commands: 2, found: 14 },
            _ => Walked { commands: 1, found: 0 },
        };
        let (mut scratch, mut found, mut pending) = ([1; 200], [1; 30], [1; 30]);
        let walked = collect_from(reader, TABLE, 0, &mut scratch, &mut found, &mut pending);
        assert_eq!(walked, Ok(expected), "{reader}");
        let (mut scratch, mut again, mut pending) = ([1; 200], [1; 30], [1; 30]);
        let packed = collect_packed_from(reader, PACKED, 0, &mut scratch, &mut again, &mut pending);
        assert_eq!((packed, again), (walked, found), "{reader}");
    }
}

/// 16 comes before 1 and all others for a number that no reader has.
#[test]
fn no_such_reader() {
    for reader in Reader::MAX + 1..=u8::MAX {
        assert_eq!(Reader::new(reader), None);
        for line in [b"".as_slice(), b"a NAMESPACE\r\n", b"a SUBSCRIBE x\r\n"] {
            assert_eq!(answer_of(reader, line), Err(Refusal::Reader));
        }
        let refused = Lent::new(&[], 1, &[]).answer(reader, b"", &mut []);
        assert_eq!(refused, Err(Refusal::Reader));
        let (mut scratch, mut found, mut pending) = ([1; 9], [1; 9], [1; 9]);
        let table = Records { count: 9, ..TABLE };
        let refused = collect_from(reader, table, 9, &mut scratch, &mut found, &mut pending);
        assert_eq!(
            (refused, scratch, found, pending),
            (Err(WalkRefusal::Reader), [0; 9], [0; 9], [0; 9])
        );
        let refused = collect_packed_from(reader, b"?", 9, &mut [1; 9], &mut [1; 9], &mut [1; 9]);
        assert_eq!(refused, Err(WalkRefusal::Reader));
    }
}

/// Edits of other readers than 0 are refused, after what is off the grammar and before 14.
#[test]
fn edits() {
    for reader in 1..=Reader::MAX {
        for (line, refusal) in [
            ("a SUBSCRIBE\r\n", Refusal::Grammar),
            ("a SUBSCRIBE \"\"\r\n", Refusal::Reader),
            ("a SUBSCRIBE no-room\r\n", Refusal::Reader),
            ("a SUBSCRIBE Customers\r\n", Refusal::Reader),
            ("a UNSUBSCRIBE nothing\r\n", Refusal::Reader),
        ] {
            assert_eq!(answer_of(reader, line.as_bytes()), Err(refusal), "{line}");
        }
    }
    // Reader 0 edits what it does not see, and the set stays.
    for readers in [0, 0b1000, READERS_ALL] {
        let mut table = Lent::new(&[Record { flags: 1, start: 0, len: 1, readers }], 1, b"x");
        let answered = table.answer(0, b"a SUBSCRIBE x\r\n", &mut [0; 20]);
        assert_eq!(answered, Ok(Answered { length: OK.len(), count: 1, changed: true }));
        assert_eq!(table.records, [Record { flags: 3, start: 0, len: 1, readers }]);
    }
}

/// Every set passes.
#[test]
fn every_set() {
    for readers in 0..=u8::MAX {
        assert!(check_table(&[0, 1, readers, 1, b'x']));
        let records = [Record { flags: 1, start: 0, len: 1, readers }];
        assert!(check_records(Lent::new(&records, 1, b"x").as_records()));
    }
}
