//! The proved library for Rust: safe functions over the static archive `libexports.a`.
//!
//! Every function takes any slices. The archive's functions are proved to stay inside of what they
//! are lent, with no condition on the caller but that what is written overlaps nothing else, which
//! exclusive references see to. A refusal changes no byte of an answer buffer and no row.
//!
//! A mailbox table is lent as records over an area of name bytes, of which so many as a count says are
//! rows. `answer` may change them: SUBSCRIBE and UNSUBSCRIBE edit the table and give the new count
//! back. `compact` moves names together where removals have left holes between them. The packed form,
//! rows without a gap, is for reading: it is checked and walked by the functions whose name says so.
//!
//! Beside the records lies their summary, a number for each: how many rows lie below its name. `summarize`
//! counts the first one, `answer` keeps it up to date, and check 1 refuses one that is wrong.
//!
//! [`replay`] runs a log of commands and answers again from the table that it started with, whole, and a [`Replay`] in
//! pieces of any length: whether every answer is the recorded one, or which is the first that differs.
//!
//! Each command and each walk comes from a [`Reader`]. A record has the set of readers who see its row,
//! and a row that is hidden from the reader counts as absent. Edits are allowed to reader 0 alone; they
//! look at all rows, and so does check 1.
//!
//! ```
//! use luspemaro::{answer, summarize, Answered, Reader, Record, RecordsMut, Refusal, Summary, READERS_ALL};
//!
//! // One mailbox that exists, and a spare record; its name, and ten bytes that no name uses.
//! let row = Record { flags: 1, start: 0, len: 13, readers: Reader::EDITOR.bit() };
//! let mut records = [row, Record::default()];
//! let mut area = *b"Customers/ABC          ";
//! let mut summary = [Summary::default(); 2];
//! let mut out = [0; 1_000];
//! summarize(&records, 1, &area, &mut summary)?;
//!
//! // A new subscription is inserted as a row, which all readers see, and its summary is counted.
//! let line = b"a SUBSCRIBE Customers\r\n";
//! let table = RecordsMut { records: &mut records, count: 1, area: &mut area, summary: &mut summary };
//! let answered = answer(Reader::EDITOR, table, b"", line, &mut out);
//! assert_eq!(answered, Ok(Answered { length: 11, count: 2, changed: true }));
//! assert_eq!(records[0], Record { flags: 2, start: 13, len: 9, readers: READERS_ALL });
//! assert_eq!((summary[0].existing_local(), summary[0].subscribed_local()), (1, 0));
//!
//! // Reader 3 does not see Customers/ABC.
//! let three = Reader::new(3).expect("a reader");
//! let line = b"a LIST (SUBSCRIBED) \"\" *\r\n";
//! let table = RecordsMut { records: &mut records, count: 2, area: &mut area, summary: &mut summary };
//! let answered = answer(three, table, b"", line, &mut out)?;
//! let expected = b"* LIST (\\Subscribed \\NonExistent) \"/\" \"Customers\"\r\na OK done\r\n";
//! assert_eq!(out[..answered.length], *expected);
//! # Ok::<(), Refusal>(())
//! ```
//!
//! `tools/kit archive` makes the archive; the build script finds it.

#![warn(missing_docs)]

mod feeder;
mod join;
mod line;
mod list_options;
mod raw;
mod raw_replay;
mod reader;
mod refusal;
mod replay;
#[cfg(test)]
mod replay_tests;
mod summary;
mod walk_refusal;

pub use feeder::{feed, put_go_on, Event, Fed, Feeder, Happening, COMMAND_ROOM};
pub use join::{join, join_packed};
pub use line::{read_line, write_line, write_parts, Criteria, Line};
pub use list_options::ListOptions;
pub use raw::{Answered, FeederState, Record, Records, RecordsMut, Walked, NAME_ROOM, READERS_ALL};
pub use reader::Reader;
pub use refusal::Refusal;
pub use replay::{replay, Replay, Replayed, Verdict};
pub use summary::Summary;
pub use walk_refusal::WalkRefusal;

/// Check 1: whether a packed mailbox table passes.
///
/// ```
/// // Flags 0003, all readers, a name of 3 bytes.
/// assert!(luspemaro::check_table(b"\0\x03\xFF\x03Foo"));
/// assert!(!luspemaro::check_table(b"\0\x03\xFF\x04Foo"));
/// ```
pub fn check_table(table: &[u8]) -> bool {
    raw::check_table(table)
}

/// Check 1 of records: whether the mailbox table that they are passes, with its summary.
///
/// ```
/// use luspemaro::{check_records, Record, Records, Summary};
///
/// // Nobody sees the row: the check does. No row lies below it, so its four counts are zero.
/// let records = [Record { flags: 3, start: 2, len: 3, readers: 0 }, Record::default()];
/// let summary = [Summary(0), Summary(9)];
/// let table = Records { records: &records, count: 1, area: b"--Foo", summary: &summary };
/// assert!(check_records(table));
/// // The second record is spare: as a row it would have no name.
/// assert!(!check_records(Records { count: 2, ..table }));
/// // A wrong number of a row, and no number for it.
/// assert!(!check_records(Records { summary: &[Summary(1)], ..table }));
/// assert!(!check_records(Records { summary: &[], ..table }));
/// ```
pub fn check_records(table: Records) -> bool {
    raw::check_records(table)
}

/// Check 2: whether a namespace list passes.
///
/// ```
/// // A personal namespace without a prefix, and one of other users; the delimiter of both is "/".
/// assert!(luspemaro::check_namespaces(b"\0\0/\x01\x01~/"));
/// // There is no class 3.
/// assert!(!luspemaro::check_namespaces(b"\x03\0/"));
/// ```
pub fn check_namespaces(list: &[u8]) -> bool {
    raw::check_namespaces(list)
}

/// Whether a name matches a canonical pattern.
///
/// ```
/// assert!(luspemaro::matches(b"Cust*", b"Customers/ABC"));
/// assert!(!luspemaro::matches(b"Cust%", b"Customers/ABC"));
/// ```
pub fn matches(pattern: &[u8], name: &[u8]) -> bool {
    raw::matches(pattern, name)
}

/// In how many steps [`matches`] decides that, each of which looks at one place of the pattern and
/// one of the name: at most `(pattern.len() + 1) * (name.len() + 1)`, and none for a name of over 255
/// bytes. The number stays at [`usize::MAX`], which only a pattern of over 2^55 bytes could come to.
///
/// ```
/// // The last byte of both, then nine bytes, and the end of both.
/// assert_eq!(luspemaro::match_steps(b"Customers", b"Customers"), 11);
/// // The last byte of both, then the "*", which takes all that is left.
/// assert_eq!(luspemaro::match_steps(b"*", b"Customers/ABC"), 2);
/// // The last byte of both, then the "%", the end of the pattern before "a", and the end of both.
/// assert_eq!(luspemaro::match_steps(b"%", b"a"), 4);
/// // The last byte of both is enough.
/// assert_eq!(luspemaro::match_steps(b"*%/%b", b"Customers/ABC"), 1);
/// ```
pub fn match_steps(pattern: &[u8], name: &[u8]) -> usize {
    raw::match_steps(pattern, name)
}

/// Answers one command line of a reader, LIST, LSUB, NAMESPACE, SUBSCRIBE or UNSUBSCRIBE, at the front of
/// `out`.
///
/// The first `count` records are the rows; those after them are spare. An edit that is accepted changes
/// the records, the area, the summary and the count; where it is refused, and for every other command, all
/// of them stay. A new row takes the first spare record and the lowest free bytes of the area. An edit from
/// another reader than 0 is refused with 16.
///
/// ```
/// use luspemaro::{answer, Reader, Record, RecordsMut, Refusal, Summary, READERS_ALL};
///
/// let mut records = [Record { flags: 3, start: 0, len: 13, readers: READERS_ALL }];
/// let (mut area, mut summary) = (*b"Customers/ABC", [Summary::default()]);
/// let mut out = [0; 100];
/// let mut ask = |reader: Reader, line: &[u8]| {
///     let table = RecordsMut { records: &mut records, count: 1, area: &mut area, summary: &mut summary };
///     let answered = answer(reader, table, b"", line, &mut out)?;
///     Ok::<_, Refusal>((out[..answered.length].to_vec(), answered.changed))
/// };
///
/// let given = ask(Reader::EDITOR, b"a LIST (SUBSCRIBED RECURSIVEMATCH) \"\" %\r\n")?;
/// let expected = b"* LIST (\\NonExistent) \"/\" \"Customers\" (\"CHILDINFO\" (\"SUBSCRIBED\"))\r\na OK done\r\n";
/// assert_eq!(given, (expected.to_vec(), false));
///
/// let line = b"a SUBSCRIBE Moo\r\n";
/// assert_eq!(ask(Reader::EDITOR, line), Err(Refusal::NoRoom));
/// assert_eq!(ask(Reader::new(3).expect("a reader"), line), Err(Refusal::Reader));
/// # Ok::<(), Refusal>(())
/// ```
pub fn answer(
    reader: Reader,
    table: RecordsMut,
    namespaces: &[u8],
    line: &[u8],
    out: &mut [u8],
) -> Result<Answered, Refusal> {
    answer_from(reader.number(), table, namespaces, line, out)
}

/// `answer` from the number of a reader: one above 7 is refused with 16, first.
///
/// ```
/// use luspemaro::{answer_from, RecordsMut, Refusal};
///
/// let table = RecordsMut { records: &mut [], count: 9, area: &mut [], summary: &mut [] };
/// let refused = answer_from(8, table, b"", b"", &mut []);
/// assert_eq!(refused, Err(Refusal::Reader));
/// ```
pub fn answer_from(
    reader: u8,
    table: RecordsMut,
    namespaces: &[u8],
    line: &[u8],
    out: &mut [u8],
) -> Result<Answered, Refusal> {
    let count = table.count;
    raw::answer(reader, table, namespaces, line, out).answered(count)
}

/// Moves the names of the rows together, in the order of their starts, to the front of the area; the
/// bytes after them, all that no row uses, become zero.
///
/// Of the first `count` records the starts change and nothing else, so their readers stay; spare records
/// and the summary stay. Every command and every walk is answered as before, but that a SUBSCRIBE which was refused with 15 may find room.
/// Straight after it, no edit between, 15 for want of bytes is given exactly if all free bytes together
/// are fewer than the name's. A table that does not pass is refused with 1, and then nothing changes.
///
/// ```
/// use luspemaro::{answer, compact, Reader, Record, RecordsMut, Refusal, Summary, READERS_ALL};
///
/// let row = Record { flags: 1, start: 2, len: 3, readers: READERS_ALL };
/// let mut records = [row, Record::default()];
/// let (mut area, mut summary) = (*b"--Foo--", [Summary::default(); 2]);
/// let mut out = [0; 100];
///
/// // No run of free bytes is long enough; all of them together are.
/// let line = b"a SUBSCRIBE Mood\r\n";
/// let table = RecordsMut { records: &mut records, count: 1, area: &mut area, summary: &mut summary };
/// assert_eq!(answer(Reader::EDITOR, table, b"", line, &mut out), Err(Refusal::NoRoom));
/// compact(&mut records, 1, &mut area, &summary)?;
/// assert_eq!((records[0].start, area), (0, *b"Foo\0\0\0\0"));
/// let table = RecordsMut { records: &mut records, count: 1, area: &mut area, summary: &mut summary };
/// let answered = answer(Reader::EDITOR, table, b"", line, &mut out)?;
/// assert_eq!((answered.count, area), (2, *b"FooMood"));
/// # Ok::<(), Refusal>(())
/// ```
pub fn compact(
    records: &mut [Record],
    count: usize,
    area: &mut [u8],
    summary: &[Summary],
) -> Result<(), Refusal> {
    Refusal::check(raw::compact(records, count, area, summary))
}

/// Counts the summary of the rows afresh, as the first one of a table: the first `count` numbers become what
/// counting gives, and those after them stay. What they hold before is not looked at.
///
/// Rows that do not pass the rest of check 1 are refused with 1, and so is a count above the records or above the
/// numbers; then no number changes.
///
/// ```
/// use luspemaro::{summarize, Record, Refusal, Summary};
///
/// // Foo exists, Foo/Bar exists and is subscribed; a spare record.
/// let row = |flags, start, len| Record { flags, start, len, readers: 1 };
/// let records = [row(1, 7, 3), row(3, 0, 7), Record::default()];
/// let mut summary = [Summary(7); 3];
/// summarize(&records, 2, b"Foo/BarFoo", &mut summary)?;
/// assert_eq!((summary[0].subscribed_local(), summary[0].existing_local()), (1, 1));
/// assert_eq!(summary[1..], [Summary(0), Summary(7)]);
/// assert_eq!(summarize(&records, 2, b"Foo/BarFoo", &mut summary[..1]), Err(Refusal::Table));
/// # Ok::<(), Refusal>(())
/// ```
pub fn summarize(
    records: &[Record],
    count: usize,
    area: &[u8],
    summary: &mut [Summary],
) -> Result<(), Refusal> {
    Refusal::check(raw::summarize(records, count, area, summary))
}

/// The walk of a table for a reader. Found and pending hold their names afterwards, each with a length
/// byte. A refusal, one of the six that a walk may have, leaves all three buffers zero.
///
/// ```
/// use luspemaro::{collect, Reader, Record, Records, Summary, Walked};
///
/// let seven = Reader::new(7).expect("a reader");
/// let records = [Record { flags: 3, start: 0, len: 13, readers: seven.bit() }];
/// let summary = [Summary::default()];
/// let table = Records { records: &records, count: 1, area: b"Customers/ABC", summary: &summary };
/// let (mut scratch, mut found, mut pending) = ([0; 100], [0; 20], [0; 20]);
///
/// // The top level is asked, then what lies below Customers.
/// let walked = collect(seven, table, 0, &mut scratch, &mut found, &mut pending);
/// assert_eq!(walked, Ok(Walked { commands: 2, found: 14 }));
/// assert_eq!(&found[..14], b"\x0DCustomers/ABC");
/// assert_eq!(&pending[..10], b"\x09Customers");
///
/// // To reader 0 the table is empty.
/// let walked = collect(Reader::EDITOR, table, 0, &mut scratch, &mut found, &mut pending);
/// assert_eq!(walked, Ok(Walked { commands: 1, found: 0 }));
/// ```
pub fn collect(
    reader: Reader,
    table: Records,
    option: u8,
    scratch: &mut [u8],
    found: &mut [u8],
    pending: &mut [u8],
) -> Result<Walked, WalkRefusal> {
    collect_from(reader.number(), table, option, scratch, found, pending)
}

/// `collect` from the number of a reader: one above 7 is refused with 16, first.
///
/// ```
/// use luspemaro::{collect_from, Records, WalkRefusal};
///
/// let table = Records { records: &[], count: 1, area: b"", summary: &[] };
/// let refused = collect_from(8, table, 9, &mut [], &mut [], &mut []);
/// assert_eq!(refused, Err(WalkRefusal::Reader));
/// ```
pub fn collect_from(
    reader: u8,
    table: Records,
    option: u8,
    scratch: &mut [u8],
    found: &mut [u8],
    pending: &mut [u8],
) -> Result<Walked, WalkRefusal> {
    raw::collect(reader, table, option, scratch, found, pending).walked()
}

/// `collect` over a packed table.
///
/// ```
/// use luspemaro::{collect_packed, Reader, WalkRefusal, Walked};
///
/// let table = b"\0\x03\xFF\x03Foo";
/// let (mut scratch, mut found) = ([0; 100], [0; 4]);
/// let walked = collect_packed(Reader::EDITOR, table, 0, &mut scratch, &mut found, &mut []);
/// assert_eq!(walked, Ok(Walked { commands: 1, found: 4 }));
/// assert_eq!(&found, b"\x03Foo");
///
/// let found = &mut found[1..];
/// let refused = collect_packed(Reader::EDITOR, table, 0, &mut scratch, found, &mut []);
/// assert_eq!(refused, Err(WalkRefusal::FoundFull));
/// ```
pub fn collect_packed(
    reader: Reader,
    table: &[u8],
    option: u8,
    scratch: &mut [u8],
    found: &mut [u8],
    pending: &mut [u8],
) -> Result<Walked, WalkRefusal> {
    collect_packed_from(reader.number(), table, option, scratch, found, pending)
}

/// `collect_packed` from the number of a reader: one above 7 is refused with 16, first.
///
/// ```
/// use luspemaro::{collect_packed_from, WalkRefusal};
///
/// let refused = collect_packed_from(255, b"?", 9, &mut [], &mut [], &mut []);
/// assert_eq!(refused, Err(WalkRefusal::Reader));
/// ```
pub fn collect_packed_from(
    reader: u8,
    table: &[u8],
    option: u8,
    scratch: &mut [u8],
    found: &mut [u8],
    pending: &mut [u8],
) -> Result<Walked, WalkRefusal> {
    raw::collect_packed(reader, table, option, scratch, found, pending).walked()
}
