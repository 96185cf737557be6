//! The summary beside the table (document 02, W13), called from Rust.

mod common;

use common::{Lent, SPARE};
use luspemaro::{check_records, collect_from, Record, Refusal, Summary, WalkRefusal, READERS_ALL};

const AREA: &[u8; 40] = b"FooFoo xFoo-xFoo/BarFoo/Bar/farFoo-x/y--";
const COUNT: usize = 6;
/// Foo exists; Foo x, Foo-x and Foo-x/y stand between it and its children, and Foo-x/y is remote; Foo/Bar is
/// subscribed and does not exist; Foo/Bar/far is subscribed and remote. Two records are spare.
const RECORDS: [Record; 8] = [
    row(1, 0, 3),
    row(3, 3, 5),
    row(1, 8, 5),
    row(5, 31, 7),
    row(2, 13, 7),
    row(7, 20, 11),
    row(0xFFFF, 9, 9),
    row(0xFFFF, 9, 9),
];

const fn row(flags: u16, start: u16, len: u8) -> Record {
    Record { flags, start, len, readers: READERS_ALL }
}

/// Subscribed local and remote, existing local and remote.
const fn counts([one, two, three, four]: [u64; 4]) -> Summary {
    Summary(one | two << 16 | three << 32 | four << 48)
}

fn lent() -> Lent {
    Lent::new(&RECORDS, COUNT, AREA)
}

/// An edit of reader 0: whether it changed a row.
fn edit(table: &mut Lent, line: &str) -> Result<bool, Refusal> {
    table.answer(0, format!("a {line}\r\n").as_bytes(), &mut [0; 20]).map(|given| given.changed)
}

#[test]
fn counted_afresh() {
    let mut table = lent();
    let zero = Summary(0);
    let expected = [
        counts([1, 1, 0, 1]),
        zero,
        counts([0, 0, 0, 1]),
        zero,
        counts([0, 1, 0, 1]),
        zero,
        SPARE,
        SPARE,
    ];
    assert_eq!(table.summary, expected);
    assert!(check_records(table.as_records()));
    // What the numbers hold before is not looked at.
    table.summary.fill(SPARE);
    assert_eq!((table.summarize(), &table.summary[..]), (Ok(()), &expected[..]));
    for numbers in 0..COUNT {
        let mut short = Lent { summary: vec![SPARE; numbers], ..lent() };
        assert_eq!(short.summarize(), Err(Refusal::Table));
        assert_eq!(short.summary, vec![SPARE; numbers]);
    }
}

/// Each bit of each number of a row; the numbers of spare records may hold anything.
#[test]
fn wrong_numbers() {
    for (at, bit) in (0..8).flat_map(|at| (0..64).map(move |bit| (at, bit))) {
        let mut before = lent();
        before.summary[at].0 ^= 1 << bit;
        let is_spare = at >= COUNT;
        assert_eq!(check_records(before.as_records()), is_spare, "{at} {bit}");
        let mut table = before.clone();
        let listed = table.answer(0, b"a NAMESPACE\r\n", &mut [0; 50]).map(drop);
        assert_eq!((listed.is_ok(), &table), (is_spare, &before), "{at} {bit}");
        let refused = collect_from(0, before.as_records(), 4, &mut [], &mut [], &mut []);
        let number = if is_spare { WalkRefusal::UnknownOption } else { WalkRefusal::Table };
        assert_eq!(refused, Err(number), "{at} {bit}");
    }
}

/// The summary of an edited table is that of the same rows counted afresh.
#[test]
fn kept_up_to_date() {
    let mut table = lent();
    table.area.extend_from_slice(&[b'.'; 60]);
    for (line, changed) in [
        ("SUBSCRIBE Foo", true),
        ("SUBSCRIBE Foo", false),
        ("SUBSCRIBE Foo/Bar/near", true),
        ("SUBSCRIBE Foo/Bar/far", false),
        ("UNSUBSCRIBE Foo/Bar/far", true),
        ("UNSUBSCRIBE Foo/Bar", true),
        ("UNSUBSCRIBE Foo/Bar", false),
        ("SUBSCRIBE Foo/Bar", true),
        ("UNSUBSCRIBE Foo/Bar/near", true),
        ("SUBSCRIBE \"Foo x/y\"", true),
        ("UNSUBSCRIBE nothing", false),
    ] {
        let before = table.clone();
        assert_eq!(edit(&mut table, line), Ok(changed), "{line}");
        assert!(changed || table == before, "{line}");
        let mut again = table.clone();
        assert_eq!((again.summarize(), &again), (Ok(()), &table), "{line}");
    }
}

/// A freed number becomes zero, and the numbers after it stay; an insertion uses up the first spare one.
#[test]
fn spare_numbers() {
    let mut table = lent();
    table.summary.push(SPARE);
    assert_eq!(edit(&mut table, "UNSUBSCRIBE Foo/Bar"), Ok(true));
    assert_eq!(table.summary[COUNT - 1..], [Summary(0), SPARE, SPARE, SPARE]);
    assert_eq!(edit(&mut table, "SUBSCRIBE a"), Ok(true));
    assert_eq!(edit(&mut table, "SUBSCRIBE b"), Ok(true));
    assert_eq!(table.summary[COUNT - 1..], [Summary(0), Summary(0), SPARE, SPARE]);
}

/// As many records are lent as there are numbers.
#[test]
fn fewer_numbers_than_records() {
    for numbers in COUNT..=8 {
        let mut table = lent();
        table.summary.truncate(numbers);
        let mut inserted = 0;
        while edit(&mut table, &format!("SUBSCRIBE {inserted}")) == Ok(true) {
            inserted += 1;
        }
        assert_eq!((inserted, table.count), (numbers.min(8) - COUNT, numbers));
        assert_eq!(edit(&mut table, "SUBSCRIBE x"), Err(Refusal::NoRoom));
    }
}
