//! Records beside the names (document 02, W4), by the sentences of the request.

use second::packed::packed_records;
use second::records::MAX_AREA;
use second::rows::MAX_ROWS;
use second::{answer_reading, check_table, collect, Record, Store, Table};

use crate::common::ALL;

/// A record of an existing mailbox that all readers see.
const fn at(start: u16, len: u8) -> Record {
    Record { flags: 1, start, len, readers: ALL }
}

fn passes(area: &[u8], records: &[Record], count: usize) -> bool {
    check_table(Table::Records(counted(area, records, count).as_records()))
}

fn counted(area: &[u8], records: &[Record], count: usize) -> Store {
    Store::counted(records.to_vec(), count, area.to_vec())
}

/// Each area, its records, and whether they pass. All are rows.
fn check_all<const N: usize>(cases: [(&[u8], &[Record], bool); N]) {
    for (area, records, expected) in cases {
        let text = area.escape_ascii();
        assert_eq!(passes(area, records, records.len()), expected, "{text}: {records:?}");
    }
}

/// "records ascending by name but name bytes in any order"
#[test]
fn orders_of_records_and_bytes() {
    check_all([
        (b"", &[], true),
        (b"abc", &[at(0, 1), at(1, 1), at(2, 1)], true),
        (b"cba", &[at(2, 1), at(1, 1), at(0, 1)], true),
        (b"bca", &[at(2, 1), at(0, 1), at(1, 1)], true),
        (b"cba", &[at(0, 1), at(1, 1), at(2, 1)], false),
        (b"MooINBOX", &[at(3, 5), at(0, 3)], true),
        (b"MooINBOX", &[at(0, 3), at(3, 5)], false),
        (b"Foo/BarFoo", &[at(7, 3), at(0, 7)], true),
    ]);
}

/// "Names lie inside the area", and an end is judged without wrapping around.
#[test]
fn names_inside_the_area() {
    check_all([
        (b"ab", &[at(0, 2)], true),
        (b"ab", &[at(1, 1)], true),
        (b"ab", &[at(0, 3)], false),
        (b"ab", &[at(1, 2)], false),
        (b"ab", &[at(2, 1)], false),
        (b"ab", &[at(2, 0)], false),
        (b"ab", &[at(3, 0)], false),
        (b"", &[at(0, 0)], false),
        (b"", &[at(0, 1)], false),
        (&[b'a'; 300], &[at(65_535, 255)], false),
        (&[b'a'; 300], &[at(65_535, 1)], false),
        (&[b'a'; 300], &[at(65_436, 200)], false),
        (&[b'a'; 300], &[at(32_768, 1)], false),
        (&[b'a'; MAX_AREA], &[at(65_535, 2)], false),
        (&[b'a'; 300], &[at(100, 200)], true),
        (&[b'a'; 300], &[at(100, 201)], false),
        (&[b'a'; 300], &[at(101, 200)], false),
    ]);
}

/// "without overlap": by one byte, from either side, one in the other, and side by side.
#[test]
fn names_without_overlap() {
    check_all([
        (b"abc", &[at(0, 2), at(2, 1)], true),
        (b"abc", &[at(0, 2), at(1, 2)], false),
        (b"bac", &[at(1, 2), at(0, 2)], false),
        (b"abc", &[at(0, 3), at(1, 1)], false),
        (b"bac", &[at(1, 1), at(0, 3)], false),
        (b"abc", &[at(0, 1), at(0, 3)], false),
        (b"abc", &[at(0, 3), at(2, 1)], false),
        (b"abc", &[at(0, 1), at(1, 2)], true),
        (b"bcda", &[at(3, 1), at(0, 2), at(1, 2)], false),
        (b"axbc", &[at(0, 1), at(2, 1), at(3, 1)], true),
        (b"a/ba", &[at(0, 1), at(0, 3)], false),
        (b"a/ba", &[at(3, 1), at(0, 3)], true),
        // The row between lies elsewhere, so neither neighbour of it shows the overlap.
        (b"adcb", &[at(0, 2), at(3, 1), at(1, 1)], false),
        (b"Foo/BarBarZ", &[at(4, 4), at(0, 7), at(10, 1)], false),
    ]);
}

/// "bytes may be unused", and may then hold anything, a copy of a name too.
#[test]
fn unused_bytes() {
    check_all([
        (b"%*\0\xFFa/\r\n", &[at(4, 1)], true),
        (b"a\0b", &[at(0, 1), at(2, 1)], true),
        (b"aab", &[at(1, 1), at(2, 1)], true),
        (b"aba", &[at(0, 1), at(1, 1)], true),
        (b"FooFoo/Bar", &[at(3, 7)], true),
        (b"\0\0\0", &[], true),
    ]);
}

/// "at most 32,768 bytes", with rows or without.
#[test]
fn lengths_of_areas() {
    for (length, expected) in [(MAX_AREA, true), (MAX_AREA + 1, false)] {
        let area = vec![b'a'; length];
        assert_eq!(passes(&area, &[], 0), expected, "{length}, no rows");
        assert_eq!(passes(&area, &[at(0, 1)], 1), expected, "{length}, at the front");
        let last = u16::try_from(MAX_AREA - 1).expect("a start");
        assert_eq!(passes(&area, &[at(last, 1)], 1), expected, "{length}, at the end");
    }
}

/// The records after the count are not looked at; a count above the records does not pass.
#[test]
fn counts_and_spare_records() {
    let odd = Record { flags: 0xFFFF, start: 65_535, len: 255, readers: 0 };
    let records = [at(0, 1), at(1, 1), at(0, 1), odd];
    let counts = [(0, true), (1, true), (2, true), (3, false), (4, false), (5, false)];
    for (count, expected) in counts {
        assert_eq!(passes(b"ab", &records, count), expected, "{count}");
    }
    // Numbers whose low bits are a count that would pass.
    for high in [1 << 16, 1 << 32, 1 << 63, usize::MAX - 3] {
        for count in [0, 2, 3] {
            assert!(!passes(b"ab", &records, high + count), "{high} and {count}");
        }
    }
    for spare in [1, 512, 70_000] {
        let records = [vec![at(0, 1)], vec![odd; spare]].concat();
        assert!(passes(b"a", &records, 1), "{spare} spare");
    }
}

#[test]
fn numbers_of_rows() {
    for (count, expected) in [(MAX_ROWS, true), (MAX_ROWS + 1, false)] {
        let names: Vec<String> = (0..count).map(|number| format!("{number:03}")).collect();
        let records: Vec<Record> = (0..count).map(|number| at(3 * number as u16, 3)).collect();
        assert_eq!(passes(names.concat().as_bytes(), &records, count), expected, "{count}");
        let spare = [records, vec![Record::default(); 9]].concat();
        assert!(passes(names.concat().as_bytes(), &spare, MAX_ROWS), "{count}");
    }
}

/// "The rest of check 1 stays": one record over its name. What packed rows show is shown for
/// records too by `checks`.
#[test]
fn the_rest_of_check_1() {
    let rows: [(&[u8], u16, bool); 8] = [
        (b"a", 0x0001, true),
        (b"a", 0x0000, false),
        (b"a", 0x0002, true),
        (b"a", 0x0061, false),
        (b"a", 0x8001, false),
        (b"Inbox", 0x0001, false),
        (b"a%", 0x0001, false),
        (b"a//b", 0x0001, false),
    ];
    for (name, flags, expected) in rows {
        let record = Record { flags, ..at(0, name.len() as u8) };
        assert_eq!(passes(name, &[record], 1), expected, "{}", name.escape_ascii());
    }
    let childless = Record { flags: 0x0011, ..at(3, 1) };
    check_all([(b"a/ba", &[childless, at(0, 3)], false), (b"a-ba", &[childless, at(0, 3)], true)]);
}

/// The names of a packed table stay where they lie.
#[test]
fn records_of_packed_tables() {
    let hidden = Record { readers: 0, ..at(4, 1) };
    let tables: [(&[u8], Option<&[Record]>); 7] = [
        (b"", Some(&[])),
        (b"\0\x01\xFF\x01a", Some(&[at(4, 1)])),
        (b"\0\x01\0\x01a", Some(&[hidden])),
        (b"\0\x01\xFF\x03Foo\0\x01\xFF\x01a", Some(&[at(4, 3), at(11, 1)])),
        (b"\0\x01\xFF\x00", Some(&[at(4, 0)])),
        (b"\0\x01\xFF\x02a", None),
        (b"\0\x01\xFF\x01a\0", None),
    ];
    for (table, expected) in tables {
        let records = packed_records(table);
        assert_eq!(records.as_deref(), expected, "{}", table.escape_ascii());
        let count = records.as_ref().map_or(0, Vec::len);
        let in_place = records.is_some_and(|records| passes(table, &records, count));
        assert_eq!(in_place, check_table(Table::Packed(table)), "{}", table.escape_ascii());
    }
    assert!(packed_records(&[b"\0\x01\xFF\xC8".as_slice(), &[b'a'; 200]].concat().repeat(161))
        .is_none());
}

/// 1 comes before every other refusal, in commands and walks.
#[test]
fn refusals_of_records_first() {
    let mut no_number = counted(b"a", &[at(0, 1)], 1);
    no_number.summary.clear();
    let mut wrong = counted(b"a", &[at(0, 1)], 1);
    wrong.summary[0].subscribed_remote = 1;
    let two_for_one = counted(b"a", &[at(0, 1)], 2);
    let past_the_area = counted(b"a", &[at(1, 1)], 1);
    let overlapping = counted(b"ab", &[at(0, 1), at(0, 2)], 2);
    for store in [two_for_one, past_the_area, overlapping, no_number, wrong] {
        let table = Table::Records(store.as_records());
        for line in ["", "a NAMESPACE\r\n", "a LIST \"\" *\r\n"] {
            let mut out = [b'.'; 9];
            let result = answer_reading(0, table, b"\x09", line.as_bytes(), &mut out);
            assert_eq!((result.map_err(|refusal| refusal.number()), out), (Err(1), [b'.'; 9]));
        }
        for option in [0, 9] {
            let mut lent = [[b'.'; 9]; 3];
            let [scratch, found, pending] = &mut lent;
            let result = collect(0, table, option, scratch, found, pending);
            assert_eq!((result.map_err(|refusal| refusal.number()), lent), (Err(1), [[0; 9]; 3]));
        }
    }
}
