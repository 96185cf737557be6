//! The C names of the crate `exports` and its structs, and a safe call of each. A slice passes as a
//! pointer and a length, which of records and of numbers of a summary is how many they are.

use crate::refusal::Refusal;
use crate::summary::Summary;
use crate::walk_refusal::WalkRefusal;

/// The bytes of the area that a name is read into.
pub const NAME_ROOM: usize = 200;
/// The set of all eight readers.
pub const READERS_ALL: u8 = 0xFF;

/// `Outcome` of the crate `exports`.
#[repr(C)]
pub struct Outcome {
    pub number: u8,
    pub changed: u8,
    pub length: usize,
    pub count: usize,
}

/// What comes of a command that is not refused.
#[derive(Clone, Copy, Debug, PartialEq, Eq)]
pub struct Answered {
    /// The length of the answer at the front of the buffer.
    pub length: usize,
    /// How many of the records are rows now.
    pub count: usize,
    /// Whether a row changed: SUBSCRIBE of a name that was not subscribed, or UNSUBSCRIBE of one that was.
    pub changed: bool,
}

/// What a walk of the collector gives.
#[derive(Clone, Copy, Debug, PartialEq, Eq)]
pub struct Walked {
    /// The number of commands sent.
    pub commands: usize,
    /// The length of the names at the front of found.
    pub found: usize,
}

/// `LineParts` of the crate `exports`.
#[repr(C)]
pub struct LineParts {
    pub number: u8,
    pub criteria: u8,
    pub attributes: u16,
    pub length: usize,
    pub name: [u8; NAME_ROOM],
}

/// A record of a mailbox table, as the archive has it. The default is a spare one, all zero.
#[repr(C)]
#[derive(Clone, Copy, Debug, Default, PartialEq, Eq)]
pub struct Record {
    /// The flags of the mailbox, as in a packed row.
    pub flags: u16,
    /// The place of the name's first byte in the area.
    pub start: u16,
    /// The length of the name, 1 to 200 where it passes.
    pub len: u8,
    /// The set of readers who see the row, bit r for reader r; any set passes.
    pub readers: u8,
}

/// A mailbox table as records over an area of name bytes.
///
/// The rows ascend by name; the names lie inside the area, of at most 32,768 bytes, in any order and
/// without overlap. Bytes of the area that no name uses may hold anything.
#[derive(Clone, Copy, Debug)]
pub struct Records<'m> {
    /// The rows, and spare records after them.
    pub records: &'m [Record],
    /// How many of the records are rows; those after them are spare and not looked at. More than
    /// there are records, or numbers of the summary, do not pass.
    pub count: usize,
    /// The bytes among which the names lie.
    pub area: &'m [u8],
    /// A number for each record, of which those of the rows pass exactly if counting afresh gives them.
    pub summary: &'m [Summary],
}

/// A mailbox table as [`Records`] are, lent to be changed.
#[derive(Debug)]
pub struct RecordsMut<'m> {
    /// The rows, and spare records after them.
    pub records: &'m mut [Record],
    /// How many of the records are rows.
    pub count: usize,
    /// The bytes among which the names lie.
    pub area: &'m mut [u8],
    /// A number for each record.
    pub summary: &'m mut [Summary],
}

/// A feeder between two chunks, `FeederState` of the crate `exports`. The default is its first state.
#[repr(C)]
#[derive(Clone, Copy, Debug, Default, PartialEq, Eq)]
pub struct FeederState {
    /// Where in a command the last byte stands; from 7 on bytes are dropped.
    pub place: u8,
    /// 0 where the last byte is no CR.
    pub cr: u8,
    /// The number of a literal, or its bytes to come.
    pub value: usize,
    /// The command's bytes so far.
    pub size: usize,
}

/// `FedChunk` of the crate `exports`.
#[repr(C)]
pub struct FedChunk {
    pub event: u8,
    pub number: u8,
    pub length: usize,
    pub used: usize,
    pub state: FeederState,
}

extern "C" {
    fn luspemaro_check_table(table: *const u8, table_len: usize) -> bool;
    fn luspemaro_check_records(
        records: *const Record,
        records_len: usize,
        count: usize,
        area: *const u8,
        area_len: usize,
        summary: *const Summary,
        summary_len: usize,
    ) -> bool;
    fn luspemaro_check_namespaces(list: *const u8, list_len: usize) -> bool;
    fn luspemaro_matches(
        pattern: *const u8,
        pattern_len: usize,
        name: *const u8,
        name_len: usize,
    ) -> bool;
    fn luspemaro_match_steps(
        pattern: *const u8,
        pattern_len: usize,
        name: *const u8,
        name_len: usize,
    ) -> usize;
    fn luspemaro_answer(
        records: *mut Record,
        records_len: usize,
        count: usize,
        reader: u8,
        area: *mut u8,
        area_len: usize,
        summary: *mut Summary,
        summary_len: usize,
        namespaces: *const u8,
        namespaces_len: usize,
        line: *const u8,
        line_len: usize,
        out: *mut u8,
        out_len: usize,
    ) -> Outcome;
    fn luspemaro_compact(
        records: *mut Record,
        records_len: usize,
        count: usize,
        area: *mut u8,
        area_len: usize,
        summary: *const Summary,
        summary_len: usize,
    ) -> u8;
    fn luspemaro_summarize(
        records: *const Record,
        records_len: usize,
        count: usize,
        area: *const u8,
        area_len: usize,
        summary: *mut Summary,
        summary_len: usize,
    ) -> u8;
    fn luspemaro_collect(
        records: *const Record,
        records_len: usize,
        count: usize,
        reader: u8,
        area: *const u8,
        area_len: usize,
        summary: *const Summary,
        summary_len: usize,
        option: u8,
        scratch: *mut u8,
        scratch_len: usize,
        found: *mut u8,
        found_len: usize,
        pending: *mut u8,
        pending_len: usize,
    ) -> Outcome;
    fn luspemaro_collect_packed(
        table: *const u8,
        table_len: usize,
        reader: u8,
        option: u8,
        scratch: *mut u8,
        scratch_len: usize,
        found: *mut u8,
        found_len: usize,
        pending: *mut u8,
        pending_len: usize,
    ) -> Outcome;
    fn luspemaro_write_line(
        attributes: u16,
        name: *const u8,
        name_len: usize,
        criteria: u8,
        out: *mut u8,
        out_len: usize,
    ) -> Outcome;
    fn luspemaro_read_line(line: *const u8, line_len: usize) -> LineParts;
    fn luspemaro_join(
        tag: *const u8,
        tag_len: usize,
        options: u8,
        reference: *const u8,
        reference_len: usize,
        patterns: *const u8,
        patterns_len: usize,
        out: *mut u8,
        out_len: usize,
    ) -> Outcome;
    fn luspemaro_feed(
        state: FeederState,
        command: *mut u8,
        command_len: usize,
        chunk: *const u8,
        chunk_len: usize,
    ) -> FedChunk;
    fn luspemaro_put_go_on(out: *mut u8, out_len: usize, at: usize) -> usize;
}

/// A call of an entry of the archive. A slice is lent to be read or to be written, and passes as its pointer and its
/// length; all else passes by its value.
///
/// It is sound for any slices: the archive's functions are proved to stay inside of what they are lent, with no condition
/// on the caller but that what is written overlaps nothing else, and an exclusive reference overlaps nothing.
macro_rules! call {
    (@ $entry:ident [$($passed:expr),*]) => {
        unsafe { $entry($($passed),*) }
    };
    (@ $entry:ident [$($passed:expr),*] read $slice:ident $(, $($rest:tt)*)?) => {
        call!(@ $entry [$($passed,)* $slice.as_ptr(), $slice.len()] $($($rest)*)?)
    };
    (@ $entry:ident [$($passed:expr),*] write $slice:ident $(, $($rest:tt)*)?) => {
        call!(@ $entry [$($passed,)* $slice.as_mut_ptr(), $slice.len()] $($($rest)*)?)
    };
    (@ $entry:ident [$($passed:expr),*] value $value:ident $(, $($rest:tt)*)?) => {
        call!(@ $entry [$($passed,)* $value] $($($rest)*)?)
    };
    ($entry:ident: $($arguments:tt)*) => {
        call!(@ $entry [] $($arguments)*)
    };
}
pub(crate) use call;

pub fn check_table(table: &[u8]) -> bool {
    call!(luspemaro_check_table: read table)
}

pub fn check_records(table: Records) -> bool {
    let Records { records, count, area, summary } = table;
    call!(luspemaro_check_records: read records, value count, read area, read summary)
}

pub fn check_namespaces(list: &[u8]) -> bool {
    call!(luspemaro_check_namespaces: read list)
}

pub fn matches(pattern: &[u8], name: &[u8]) -> bool {
    call!(luspemaro_matches: read pattern, read name)
}

pub fn match_steps(pattern: &[u8], name: &[u8]) -> usize {
    call!(luspemaro_match_steps: read pattern, read name)
}

pub fn answer(
    reader: u8,
    table: RecordsMut,
    namespaces: &[u8],
    line: &[u8],
    out: &mut [u8],
) -> Outcome {
    let RecordsMut { records, count, area, summary } = table;
    call!(luspemaro_answer:
        write records, value count, value reader, write area, write summary, read namespaces,
        read line, write out)
}

pub fn compact(records: &mut [Record], count: usize, area: &mut [u8], summary: &[Summary]) -> u8 {
    call!(luspemaro_compact: write records, value count, write area, read summary)
}

pub fn summarize(records: &[Record], count: usize, area: &[u8], summary: &mut [Summary]) -> u8 {
    call!(luspemaro_summarize: read records, value count, read area, write summary)
}

pub fn collect(
    reader: u8,
    table: Records,
    option: u8,
    scratch: &mut [u8],
    found: &mut [u8],
    pending: &mut [u8],
) -> Outcome {
    let Records { records, count, area, summary } = table;
    call!(luspemaro_collect:
        read records, value count, value reader, read area, read summary, value option,
        write scratch, write found, write pending)
}

pub fn collect_packed(
    reader: u8,
    table: &[u8],
    option: u8,
    scratch: &mut [u8],
    found: &mut [u8],
    pending: &mut [u8],
) -> Outcome {
    call!(luspemaro_collect_packed:
        read table, value reader, value option, write scratch, write found, write pending)
}

pub fn write_line(attributes: u16, name: &[u8], criteria: u8, out: &mut [u8]) -> Outcome {
    call!(luspemaro_write_line: value attributes, read name, value criteria, write out)
}

pub fn read_line(line: &[u8]) -> LineParts {
    call!(luspemaro_read_line: read line)
}

pub fn join(tag: &[u8], options: u8, reference: &[u8], patterns: &[u8], out: &mut [u8]) -> Outcome {
    call!(luspemaro_join: read tag, value options, read reference, read patterns, write out)
}

pub fn feed(state: FeederState, command: &mut [u8], chunk: &[u8]) -> FedChunk {
    call!(luspemaro_feed: value state, write command, read chunk)
}

pub fn put_go_on(out: &mut [u8], at: usize) -> usize {
    call!(luspemaro_put_go_on: write out, value at)
}

impl Outcome {
    /// A refusal has length 0 and this count, and changed nothing.
    fn result(&self, refused_count: usize) -> Result<(), Refusal> {
        let Outcome { number, changed, length, count } = *self;
        let result = Refusal::check(number);
        assert!(
            result.is_ok() || (changed, length, count) == (0, 0, refused_count),
            "refused with {number}, changed {changed}, length {length}, count {count} for {refused_count}"
        );
        assert!(changed <= 1, "changed is {changed}");
        result
    }

    /// The same of a call that changes no row.
    fn unchanged(&self) -> Result<(), Refusal> {
        assert!(self.changed == 0, "a call that reads changed a row");
        self.result(0)
    }

    /// What a command over so many rows gives; a refusal gives their count back.
    pub fn answered(&self, count: usize) -> Result<Answered, Refusal> {
        let Outcome { length, count: given, changed, .. } = *self;
        self.result(count).map(|()| Answered { length, count: given, changed: changed == 1 })
    }

    /// What a walk gives, which is refused with six of the numbers alone.
    pub fn walked(&self) -> Result<Walked, WalkRefusal> {
        self.unchanged().map_err(|refusal| {
            let number = refusal.number();
            WalkRefusal::from_number(number)
                .unwrap_or_else(|| panic!("the archive gives the number {number} for a walk"))
        })?;
        Ok(Walked { commands: self.count, found: self.length })
    }

    /// The length of what was written.
    pub fn written(&self) -> Result<usize, Refusal> {
        self.unchanged().map(|()| self.length)
    }
}
