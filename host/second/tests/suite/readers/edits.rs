//! "all edits look at all rows": what an edit of reader 0 does to rows that are hidden.

use second::rows::MAX_ROWS;
use second::{compact, Record, Store};

use crate::common::ALL;
use crate::stores::{check_edit, check_numbers, full, row, run, store};

/// A record with some set of readers.
const fn seen_by(readers: u8, record: Record) -> Record {
    Record { readers, ..record }
}

/// Foo takes no inferiors, Hid exists, Moo does not exist; reader 0 sees none of them.
fn hidden() -> Store {
    let rows =
        [seen_by(0x80, row(0x11, 0, 3)), seen_by(0, row(1, 3, 3)), seen_by(0xFE, row(2, 6, 3))];
    store(b"FooHidMoo...", &rows, 2)
}

/// The flag of a hidden row is set and cleared; its readers stay.
#[test]
fn flags_of_hidden_rows() {
    for (name, at, flags) in [("Foo", 0, 0x13), ("Hid", 1, 3)] {
        let mut after = hidden();
        after.records[at].flags = flags;
        check_edit(&hidden(), &format!("a SUBSCRIBE {name}"), &after);
        check_edit(&after, &format!("a UNSUBSCRIBE {name}"), &hidden());
    }
    check_edit(&hidden(), "a SUBSCRIBE Moo", &hidden());
    for bits in 0..=ALL {
        let before = store(b"x", &[seen_by(bits, row(1, 0, 1))], 0);
        let after = store(b"x", &[seen_by(bits, row(3, 0, 1))], 0);
        check_edit(&before, "a SUBSCRIBE x", &after);
        check_edit(&after, "a UNSUBSCRIBE x", &before);
    }
}

/// "An inserted row is seen by all eight", and the others keep their readers.
#[test]
fn inserted_rows() {
    let [foo, hid, moo] = [hidden().records[0], hidden().records[1], hidden().records[2]];
    for (name, rows) in [
        ("Aaa", [row(2, 9, 3), foo, hid, moo]),
        ("Ggg", [foo, row(2, 9, 3), hid, moo]),
        ("Zzz", [foo, hid, moo, row(2, 9, 3)]),
    ] {
        let area = [b"FooHidMoo", name.as_bytes()].concat();
        check_edit(&hidden(), &format!("a SUBSCRIBE {name}"), &store(&area, &rows, 1));
    }
    assert_eq!(row(2, 9, 3).readers, ALL);
}

/// A hidden row 0002 is removed: "A freed record … become[s] zero", its readers too. A name that is
/// inserted again is seen by all.
#[test]
fn removed_rows() {
    let [foo, hid] = [hidden().records[0], hidden().records[1]];
    let removed = [foo, hid, Record::default()];
    let after = Store { count: 2, ..store(b"FooHid\0\0\0...", &removed, 2) };
    check_edit(&hidden(), "a UNSUBSCRIBE Moo", &after);
    let again = store(b"FooHidMoo...", &[foo, hid, row(2, 6, 3)], 2);
    check_edit(&after, "a SUBSCRIBE Moo", &again);
}

/// Hidden rows count for 14 and for 15.
#[test]
fn refusals_by_hidden_rows() {
    let mut no_spare = hidden();
    no_spare.records.truncate(3);
    check_numbers(
        &hidden(),
        [
            ("a SUBSCRIBE Foo/x", Err(14)),
            ("a SUBSCRIBE Foo/x/y", Err(14)),
            ("a SUBSCRIBE Hid/x", Err(15)),
            ("a SUBSCRIBE four", Err(15)),
            ("a SUBSCRIBE thr", Ok(())),
            ("a UNSUBSCRIBE Foo/x", Ok(())),
        ],
    );
    check_numbers(&no_spare, [("a SUBSCRIBE x", Err(15)), ("a SUBSCRIBE Hid", Ok(()))]);
    let mut most = full(MAX_ROWS, 4, 3);
    most.records.iter_mut().for_each(|record| record.readers = 0);
    most.area.resize(5_000, b'.');
    assert_eq!(run(&mut most, "a SUBSCRIBE x"), Err(15));
    assert_eq!(run(&mut most, "a SUBSCRIBE 0001"), Ok(()));
}

/// W7: readers stay, of rows and of spare records.
#[test]
fn names_moved_together() {
    let mut table = hidden();
    table.records.swap(3, 4);
    table.area = b"--Moo-Foo-Hid---".to_vec();
    for (at, start) in [6, 10, 2].into_iter().enumerate() {
        table.records[at].start = start;
    }
    let mut after = table.clone();
    assert_eq!(after.lend(compact), Ok(()));
    let starts = [3, 6, 0];
    let mut expected = table.clone();
    expected.area = b"MooFooHid\0\0\0\0\0\0\0".to_vec();
    expected.records.iter_mut().zip(starts).for_each(|(record, start)| record.start = start);
    assert_eq!(after, expected);
}
