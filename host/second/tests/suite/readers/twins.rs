//! "If two tables both pass their check and have the same names with the same flags visible to a
//! reader, then, for the same command or option byte, namespace list and lent buffers, that reader's
//! LIST, LSUB and walk give the same bytes, numbers and counts."

use second::{answer_reading, check_table, collect, Refusal, Table};

use crate::common::{table_of, Rows, FILL};

/// Tables in which reader 2 sees Foo/Bar, Moo and Moo/x, with the same flags, and what is hidden differs
/// in number, names, flags and sets.
const TWINS: [&Rows; 6] = [
    &[("Foo/Bar", "exists subscribed"), ("Moo", "exists"), ("Moo/x", "subscribed")],
    &[
        ("Foo/Bar", "exists subscribed to:2"),
        ("Moo", "exists to:02"),
        ("Moo/x", "subscribed to:27"),
    ],
    &[
        ("Foo", "exists subscribed marked to:0"),
        ("Foo/Bar", "exists subscribed"),
        ("Foo/Bar/deep", "exists subscribed sent to:1"),
        ("Moo", "exists"),
        ("Moo/x", "subscribed"),
    ],
    &[
        ("Foo", "subscribed to:"),
        ("Foo/Bar", "exists subscribed"),
        ("Moo", "exists"),
        ("Moo/a", "exists remote to:0134567"),
        ("Moo/x", "subscribed"),
        ("Moo/x/y", "exists to:1"),
    ],
    &[
        ("!", "exists noinferiors to:7"),
        ("Foo", "exists noselect to:7"),
        ("Foo/Bar", "exists subscribed"),
        ("INBOX", "exists subscribed to:7"),
        ("Moo", "exists"),
        ("Moo/x", "subscribed"),
        ("Moo/x/inbox", "subscribed to:7"),
        ("~", "exists junk subscribed to:7"),
    ],
    &[
        ("Foo/Bar", "exists subscribed"),
        ("Foo/Bar-x", "exists noinferiors to:0"),
        ("Foo/Baz", "exists subscribed to:0"),
        ("Moo", "exists"),
        ("Moo/x", "subscribed"),
    ],
];

const LINES: [&str; 14] = [
    "a LIST \"\" *",
    "a LIST \"\" %",
    "a LIST \"\" % RETURN (CHILDREN SUBSCRIBED SPECIAL-USE)",
    "a LIST \"\" * RETURN (CHILDREN)",
    "a LIST (REMOTE) \"\" (%/% x *%) RETURN (CHILDREN)",
    "a LIST (SUBSCRIBED RECURSIVEMATCH) \"\" %",
    "a LIST (SUBSCRIBED RECURSIVEMATCH REMOTE) \"\" (Foo Moo)",
    "a LIST (RECURSIVEMATCH SPECIAL-USE) \"\" *",
    "a LIST (RECURSIVEMATCH) \"\" *",
    "a LIST \"\" \"\"",
    "a LSUB \"\" *",
    "a LSUB \"\" %",
    "a LSUB Foo/ %",
    "a NAMESPACE",
];

const READER: u8 = 2;

#[test]
fn the_same_answers() {
    let tables = TWINS.map(table_of);
    assert!(tables.iter().all(|table| check_table(Table::Packed(table))));
    for line in LINES {
        let line = format!("{line}\r\n");
        let answer = |table: &Vec<u8>, room: usize| {
            let mut out = vec![FILL; room];
            let table = Table::Packed(table);
            (answer_reading(READER, table, b"", line.as_bytes(), &mut out), out)
        };
        for room in 0..500 {
            let first = answer(&tables[0], room);
            for table in &tables[1..] {
                assert_eq!(answer(table, room), first, "{line}, room {room}");
            }
        }
    }
}

#[test]
fn the_same_walks() {
    let tables = TWINS.map(table_of);
    for option in 0..10 {
        for scratch in (0..300).step_by(7) {
            for (found, pending) in [(0, 0), (7, 0), (8, 3), (8, 4), (8, 8), (20, 8), (20, 20)] {
                let walk = |table: &Vec<u8>| {
                    let mut lent = [scratch, found, pending].map(|room| vec![FILL; room]);
                    let [scratch, found, pending] = &mut lent;
                    let table = Table::Packed(table);
                    (collect(READER, table, option, scratch, found, pending), lent)
                };
                let first = walk(&tables[0]);
                for table in &tables[1..] {
                    assert_eq!(walk(table), first, "option {option}");
                }
            }
        }
    }
}

/// "Refusal 1 and all edits look at all rows and are outside this claim": an edit of reader 0 meets what
/// is hidden from it.
#[test]
fn edits_are_outside() {
    let tables: [&Rows; 2] = [&[("a", "exists to:1")], &[("a", "exists noinferiors to:1")]];
    let numbers = tables.map(|rows| {
        let table = table_of(rows);
        let line = b"a SUBSCRIBE a/b\r\n";
        let given = answer_reading(0, Table::Packed(&table), b"", line, &mut [0; 40]);
        given.map_err(Refusal::number)
    });
    assert_eq!(numbers, [Err(15), Err(14)]);
}
