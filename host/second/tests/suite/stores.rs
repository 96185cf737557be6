//! Stores, the edits of them (document 02, W6), and what an edit leaves.

use second::table::checked_rows;
use second::{answer, check_table, Record, Refusal, Store, Table};

use crate::common::{ALL, FILL, SPARE_SUMMARY};

/// The answer to each edit here that is accepted.
pub const OK: &[u8] = b"a OK done\r\n";
/// What spare records hold at first.
const SPARE: Record = Record { flags: 0xBEEF, start: 0xFFFF, len: 0xEE, readers: 0x77 };

/// A row that all readers see.
pub const fn row(flags: u16, start: u16, len: u8) -> Record {
    Record { flags, start, len, readers: ALL }
}

/// Rows over an area, their summary counted, and spare records after them.
pub fn store(area: &[u8], rows: &[Record], spare: usize) -> Store {
    let records = [rows, &vec![SPARE; spare]].concat();
    let mut store = Store::counted(records, rows.len(), area.to_vec());
    store.summary[rows.len()..].fill(SPARE_SUMMARY);
    store
}

/// Runs a command of reader 0, its CR LF added, in a buffer of this length.
pub fn run_in(store: &mut Store, command: &str, room: usize) -> (Result<usize, u8>, Vec<u8>) {
    run_from(0, store, command, room)
}

/// The same of any reader.
pub fn run_from(
    reader: u8,
    store: &mut Store,
    command: &str,
    room: usize,
) -> (Result<usize, u8>, Vec<u8>) {
    let mut out = vec![FILL; room];
    let line = format!("{command}\r\n");
    let result = store.lend(|lent| answer(reader, lent, b"", line.as_bytes(), &mut out));
    (result.map(|answered| answered.length).map_err(Refusal::number), out)
}

/// An edit of reader 0 in a buffer with room for the answer; checks the buffer, that a refusal changes nothing,
/// and that what is left passes with its summary.
pub fn run(store: &mut Store, command: &str) -> Result<(), u8> {
    edit_from(0, store, command)
}

/// The same of any reader.
pub fn edit_from(reader: u8, store: &mut Store, command: &str) -> Result<(), u8> {
    let before = store.clone();
    let (result, out) = run_from(reader, store, command, OK.len() + 9);
    let (text, behind) = out.split_at(result.unwrap_or(0));
    assert!(behind.iter().all(|&byte| byte == FILL), "{command}");
    match result {
        Ok(_) => {
            assert_eq!(text, OK, "{command}");
            assert!(check_table(Table::Records(store.as_records())), "{command}");
        }
        Err(_) => assert_eq!(*store, before, "{command}"),
    }
    result.map(drop)
}

/// An edit that is accepted, and what it leaves.
pub fn check_edit(before: &Store, command: &str, after: &Store) {
    let mut store = before.clone();
    assert_eq!(run(&mut store, command), Ok(()), "{command}");
    assert_eq!(store, *after, "{command}");
}

/// Edits that are refused, or accepted, each over the same table.
pub fn check_numbers<const N: usize>(before: &Store, commands: [(&str, Result<(), u8>); N]) {
    for (command, expected) in commands {
        assert_eq!(run(&mut before.clone(), command), expected, "{command}");
    }
}

/// Names of rows, with their flags.
pub fn rows_of(store: &Store) -> Vec<(String, u16)> {
    let rows = checked_rows(Table::Records(store.as_records())).expect("a table that passes");
    let text = |name: &[u8]| String::from_utf8(name.to_vec()).expect("ASCII");
    rows.iter().map(|row| (text(row.name), row.flags.bits())).collect()
}

/// Existing rows with names of one length, which fill an area.
pub fn full(count: usize, length: usize, spare: usize) -> Store {
    let names: Vec<String> = (0..count).map(|at| format!("{at:0length$}")).collect();
    let rows: Vec<Record> =
        (0..count).map(|at| row(1, (at * length) as u16, length as u8)).collect();
    store(names.concat().as_bytes(), &rows, spare)
}

/// Foo, Foo/Bar, INBOX, which takes no inferiors, and Moo, which does not exist. The names lie in
/// another order, with 2, 3, 6 and 5 unused bytes before them.
pub fn tree() -> Store {
    let area = b"--Moo---Foo/Bar______Foo.....INBOX";
    let rows = [row(1, 21, 3), row(3, 8, 7), row(0x31, 29, 5), row(2, 2, 3)];
    store(area, &rows, 2)
}
