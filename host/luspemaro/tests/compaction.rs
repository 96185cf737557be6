//! Names moved together, called from Rust.

mod common;

use common::{Lent, SPARE};
use luspemaro::{check_records, collect, Answered, Reader, Record, Refusal, Walked, READERS_ALL};

const OK: &[u8] = b"a OK done\r\n";

/// Foo exists, INBOX takes no inferiors, Moo does not exist; the last two records are spare.
const RECORDS: [Record; 5] = [
    Record { flags: 0x7F29, start: 13, len: 3, readers: READERS_ALL },
    Record { flags: 0x53, start: 6, len: 5, readers: 1 },
    Record { flags: 2, start: 1, len: 3, readers: 0x81 },
    Record { flags: 9, start: 9, len: 9, readers: 9 },
    Record { flags: 0xFFFF, start: 0xFFFF, len: 0xFF, readers: 0x5A },
];
const COUNT: usize = 3;
const AREA: [u8; 18] = *b"-Moo--INBOX\0\0Foo%%";
const COMPACTED: [u8; 18] = *b"MooINBOXFoo\0\0\0\0\0\0\0";

/// The records with other starts of the rows.
fn starting_at(starts: [u16; COUNT]) -> [Record; 5] {
    let mut records = RECORDS;
    records.iter_mut().zip(starts).for_each(|(record, start)| record.start = start);
    records
}

fn lent() -> Lent {
    Lent::new(&RECORDS, COUNT, &AREA)
}

#[test]
fn names_move_together() {
    let mut table = lent();
    for _ in 0..2 {
        assert_eq!(table.compact(), Ok(()));
        assert_eq!(table, Lent::new(&starting_at([8, 3, 0]), COUNT, &COMPACTED));
        assert!(check_records(table.as_records()));
    }
}

/// The count alone says which records are rows; without rows all bytes are free.
#[test]
fn counts() {
    for (count, starts, expected) in [
        (0, [13, 6, 1], [0; 18]),
        (1, [0, 6, 1], *b"Foo\0\0\0\0\0\0\0\0\0\0\0\0\0\0\0"),
        (2, [5, 0, 1], *b"INBOXFoo\0\0\0\0\0\0\0\0\0\0"),
        (3, [8, 3, 0], COMPACTED),
    ] {
        let mut table = Lent::new(&RECORDS, count, &AREA);
        assert_eq!(table.compact(), Ok(()));
        assert_eq!(table, Lent::new(&starting_at(starts), count, &expected), "{count}");
    }
    assert_eq!(Lent::new(&[], 0, &[]).compact(), Ok(()));
}

/// 1 is the only refusal, and it changes nothing.
#[test]
fn tables_that_do_not_pass() {
    let refused = |before: Lent| {
        let mut table = before.clone();
        assert_eq!(table.compact(), Err(Refusal::Table));
        assert_eq!(table, before);
    };
    for count in [4, 5, 6, 512, usize::MAX] {
        refused(Lent { count, ..lent() });
    }
    for starts in [[13, 6, 5], [13, 6, 16], [1, 6, 13]] {
        refused(Lent::new(&starting_at(starts), COUNT, &AREA));
    }
    refused(Lent::new(&[], 0, &[b'-'; 32_769]));
    let mut large = Lent::new(&[], 0, &[b'-'; 32_768]);
    assert_eq!(large.compact(), Ok(()));
    assert!(large.area.iter().all(|&byte| byte == 0));
}

/// A summary that is wrong or too short is 1 too; what is beside the rows is not looked at.
#[test]
fn summaries() {
    for (at, bit) in (0..COUNT).flat_map(|at| (0..64).map(move |bit| (at, bit))) {
        let mut before = lent();
        before.summary[at].0 ^= 1 << bit;
        let mut table = before.clone();
        assert_eq!((table.compact(), &table), (Err(Refusal::Table), &before));
    }
    for numbers in 0..8 {
        let mut table = lent();
        table.summary.resize(numbers, SPARE);
        let before = table.summary.clone();
        assert_eq!(table.compact().is_ok(), numbers >= COUNT);
        assert_eq!(table.summary, before);
    }
}

/// A server's two calls: names moved together after a 15, and the same line again.
#[test]
fn room_after_15() {
    let mut table = lent();
    let subscribe = |table: &mut Lent, length: usize| {
        let line = format!("a SUBSCRIBE {}\r\n", "n".repeat(length));
        table.answer(0, line.as_bytes(), &mut [0; 20])
    };
    for length in [3, 7, 8] {
        assert_eq!(subscribe(&mut table, length), Err(Refusal::NoRoom));
    }
    assert_eq!(table, lent());
    assert_eq!(table.compact(), Ok(()));
    // All free bytes together are 7.
    assert_eq!(subscribe(&mut table, 8), Err(Refusal::NoRoom));
    let answered = subscribe(&mut table, 7);
    assert_eq!(answered, Ok(Answered { length: OK.len(), count: 4, changed: true }));
    assert_eq!(table.area, b"MooINBOXFoonnnnnnn");
    assert_eq!(table.records[3], Record { flags: 2, start: 11, len: 7, readers: READERS_ALL });
    assert_eq!(table.records[4], RECORDS[4]);
}

/// Commands and walks are answered as before.
#[test]
fn answers_stay() {
    let mut moved = lent();
    assert_eq!(moved.compact(), Ok(()));
    let tables = [lent(), moved];
    for line in [
        "a LIST \"\" *\r\n",
        "a LSUB \"\" %\r\n",
        "a SUBSCRIBE Foo\r\n",
        "a SUBSCRIBE inbox/x\r\n",
        "a UNSUBSCRIBE Moo\r\n",
    ] {
        let given = tables.clone().map(|mut table| {
            let mut out = [b'.'; 200];
            (table.answer(0, line.as_bytes(), &mut out), out)
        });
        assert_eq!(given[0], given[1], "{line}");
    }
    let walks = tables.each_ref().map(|table| {
        let (mut scratch, mut found, mut pending) = ([1; 200], [1; 30], [1; 30]);
        let table = table.as_records();
        let walked = collect(Reader::EDITOR, table, 0, &mut scratch, &mut found, &mut pending);
        (walked, found, pending)
    });
    assert_eq!(walks[0], walks[1]);
    assert_eq!(walks[0].0, Ok(Walked { commands: 1, found: 10 }));
}
