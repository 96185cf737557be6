//! What SUBSCRIBE and UNSUBSCRIBE do to the rows.

use second::records::MAX_AREA;
use second::{Record, Store};

use crate::stores::{check_edit, full, row, rows_of, run, store, tree};

/// "SUBSCRIBE sets the flag": the row keeps its other flags, and nothing else changes.
#[test]
fn the_flag_is_set() {
    let before = tree();
    for (name, at, flags) in [("Foo", 0, 0x03), ("INBOX", 2, 0x33), ("iNbOx", 2, 0x33)] {
        let mut after = before.clone();
        after.records[at].flags = flags;
        check_edit(&before, &format!("a SUBSCRIBE {name}"), &after);
    }
    for flags in (0..=u16::MAX).filter(|flags| flags & 0x8083 == 1 && flags & 0x60 != 0x60) {
        let before = store(b"x", &[row(flags, 0, 1)], 0);
        check_edit(&before, "a SUBSCRIBE x", &store(b"x", &[row(flags | 2, 0, 1)], 0));
    }
}

/// A flag that is set, and a row 0002, stay as they are.
#[test]
fn the_flag_is_set_already() {
    for name in ["Foo/Bar", "Moo"] {
        check_edit(&tree(), &format!("a SUBSCRIBE {name}"), &tree());
    }
}

/// "or inserts a row 0002 if the name is lawful and has no row": the rows after it move by one place
/// and keep name, flags and start; the first spare record is used up, and the others stay.
#[test]
fn a_row_is_inserted() {
    let [foo, foo_bar, inbox, moo] = [row(1, 21, 3), row(3, 8, 7), row(0x31, 29, 5), row(2, 2, 3)];
    let area = b"--Moo---Foo/Bar______Foo.....INBOX";
    let at_5 = |name: &[u8]| [&area[..5], name, &area[5 + name.len()..]].concat();
    let at_15 = |name: &[u8]| [&area[..15], name, &area[15 + name.len()..]].concat();
    let new = |start, len| row(2, start, len);
    let cases: [(&str, Vec<u8>, [Record; 5]); 6] = [
        ("Baz", at_5(b"Baz"), [new(5, 3), foo, foo_bar, inbox, moo]),
        ("Foo-x", at_15(b"Foo-x"), [foo, new(15, 5), foo_bar, inbox, moo]),
        ("Foo0", at_15(b"Foo0"), [foo, foo_bar, new(15, 4), inbox, moo]),
        ("INBOX2", at_15(b"INBOX2"), [foo, foo_bar, inbox, new(15, 6), moo]),
        ("a/b", at_5(b"a/b"), [foo, foo_bar, inbox, moo, new(5, 3)]),
        ("Z", [b"Z", &area[1..]].concat(), [foo, foo_bar, inbox, moo, new(0, 1)]),
    ];
    for (name, area, rows) in cases {
        check_edit(&tree(), &format!("a SUBSCRIBE {name}"), &store(&area, &rows, 1));
    }
    check_edit(&store(b".", &[], 3), "a SUBSCRIBE x", &store(b"x", &[row(2, 0, 1)], 2));
}

/// "it takes the lowest such run": by its start, long enough, and the name at its start. Free is
/// what no row uses, whatever it holds; neighbouring free bytes are one run.
#[test]
fn the_lowest_free_run() {
    // The names x and y, and where a name of 3 bytes goes.
    let cases: [(&[u8], [u16; 2], Option<u16>); 16] = [
        (b"xy...", [0, 1], Some(2)),
        (b"...xy", [3, 4], Some(0)),
        (b"x...y", [0, 4], Some(1)),
        (b"x..y...", [0, 3], Some(4)),
        (b"x..y....", [0, 3], Some(4)),
        (b"..x...y...", [2, 6], Some(3)),
        (b"x.....y...", [0, 6], Some(1)),
        (b"......xy", [6, 7], Some(0)),
        (b"yx...", [1, 0], Some(2)),
        (b"y...x...", [4, 0], Some(1)),
        (b"xxyyxxxy", [0, 7], Some(1)),
        (b"x\0\0\0y\xFF\xFF\xFF", [0, 4], Some(1)),
        (b"x..y..", [0, 3], None),
        (b"..x..y..", [2, 5], None),
        (b"xy..", [0, 1], None),
        (b"xy", [0, 1], None),
    ];
    for (area, [x, y], place) in cases {
        let before = store(area, &[row(1, x, 1), row(1, y, 1)], 2);
        let text = area.escape_ascii();
        let mut after = before.clone();
        let result = run(&mut after, "a SUBSCRIBE abc");
        let Some(place) = place else {
            assert_eq!(result, Err(15), "{text}");
            continue;
        };
        assert_eq!(result, Ok(()), "{text}");
        let mut written = area.to_vec();
        written[usize::from(place)..][..3].copy_from_slice(b"abc");
        let rows = [row(2, place, 3), row(1, x, 1), row(1, y, 1)];
        assert_eq!(after, store(&written, &rows, 1), "{text}");
    }
}

/// The last bytes of the largest area, and the longest name.
#[test]
fn the_largest_area() {
    let mut before = full(163, 200, 1);
    before.area.resize(MAX_AREA, b'.');
    assert_eq!(before.area.len() - 163 * 200, 168);
    assert_eq!(run(&mut before.clone(), &format!("a SUBSCRIBE {}", "z".repeat(169))), Err(15));
    let name = "z".repeat(168);
    let mut after = before.clone();
    assert_eq!(run(&mut after, &format!("a SUBSCRIBE {name}")), Ok(()));
    assert_eq!(after.records[163], row(2, 32_600, 168));
    assert!(after.area.ends_with(name.as_bytes()));
}

/// "UNSUBSCRIBE clears the flag" of a row that exists, which keeps its record and its other flags.
#[test]
fn the_flag_is_cleared() {
    let mut after = tree();
    after.records[1].flags = 1;
    after.recount();
    check_edit(&tree(), "a UNSUBSCRIBE Foo/Bar", &after);
    check_edit(&after, "a UNSUBSCRIBE Foo/Bar", &after);
    for flags in (0..=u16::MAX).filter(|flags| flags & 0x8083 == 3 && flags & 0x60 != 0x60) {
        let before = store(b"x", &[row(flags, 0, 1)], 0);
        check_edit(&before, "a UNSUBSCRIBE x", &store(b"x", &[row(flags & !2, 0, 1)], 0));
    }
}

/// "removes a row 0002 entirely"; "A freed record and freed name bytes become zero; other spare
/// records and unused bytes stay." The freed record is the one after the last row.
#[test]
fn a_row_is_removed() {
    let area = b"bbb.a..cc";
    let (a, b, c) = (row(2, 4, 1), row(2, 0, 3), row(2, 7, 2));
    let before = store(area, &[a, b, c], 2);
    let zero = Record::default();
    let cases: [(&str, &[u8], [Record; 3]); 3] = [
        ("a", b"bbb.\0..cc", [b, c, zero]),
        ("bbb", b"\0\0\0.a..cc", [a, c, zero]),
        ("cc", b"bbb.a..\0\0", [a, b, zero]),
    ];
    for (name, area, rows) in cases {
        let after = Store { count: 2, ..store(area, &rows, 2) };
        check_edit(&before, &format!("a UNSUBSCRIBE {name}"), &after);
    }
    let last = Store { count: 0, ..store(b"\0", &[zero], 1) };
    check_edit(&store(b"x", &[row(2, 0, 1)], 1), "a UNSUBSCRIBE x", &last);
    let no_spare = Store { count: 0, ..store(b"\0", &[zero], 0) };
    check_edit(&store(b"x", &[row(2, 0, 1)], 0), "a UNSUBSCRIBE x", &no_spare);
}

/// Only a row with flags exactly 0002 goes: "an existing row keeps its record".
#[test]
fn rows_that_exist_stay() {
    for flags in [0x0001, 0x0003, 0x0103, 0x0013] {
        let mut store = store(b"x", &[row(flags, 0, 1)], 1);
        assert_eq!(run(&mut store, "a UNSUBSCRIBE x"), Ok(()));
        assert_eq!(rows_of(&store), [("x".to_string(), flags & !2)]);
    }
}

/// "and is OK for a name with no subscription"; 14 is SUBSCRIBE's alone.
#[test]
fn no_subscription() {
    let long = "n".repeat(201);
    let longest_literal = format!("{{1024}}\r\n{}", "n".repeat(1_024));
    let names = [
        "Foo",
        "INBOX",
        "Fo",
        "Foo/Ba",
        "Foo/Bar/x",
        "x",
        "inbox/x",
        "INBOX/x",
        "\"\"",
        "{0}\r\n",
        "\"a%\"",
        "\"*\"",
        "/",
        "a/",
        "/a",
        "a//b",
        "a/b/c/d/e/f/g/h/i/j/k/l/m/n/o/p/q",
        "inbox/",
        "{1}\r\n\u{1}",
        "{2}\r\n\r\n",
        &long,
        &longest_literal,
        "foo/Bar",
        "moo",
    ];
    for name in names {
        check_edit(&tree(), &format!("a UNSUBSCRIBE {name}"), &tree());
    }
}
