//! Each entry of both libraries: the proved one first, then the second program's. Their results are
//! given in one form: numbers of refusal, and plain numbers for the rest.

use std::fmt;

use formats::show::show_table;
use luspemaro::{Answered, ListOptions, RecordsMut, Replay, Replayed, Verdict, WalkRefusal};
use second::replay::Stop;
use second::{Refusal, Table};

use crate::records::{set_count, Layout};
use crate::report::show_layout;

pub const PROVED: usize = 0;
pub const SECOND: usize = 1;

/// A mailbox table as it is lent for reading, in either form.
#[derive(Clone, Copy)]
pub enum Lent<'m> {
    Packed(&'m [u8]),
    Records(&'m Mailboxes),
}

/// A command, and what is lent beside the table and the buffer.
#[derive(Clone, Copy)]
pub struct Asked<'a> {
    pub reader: u8,
    pub list: &'a [u8],
    pub line: &'a [u8],
}

impl Asked<'_> {
    /// A command of reader 0, with an empty namespace list.
    pub fn by_0(line: &[u8]) -> Asked<'_> {
        Asked { reader: 0, list: b"", line }
    }
}

/// Records over an area, for each of the two libraries a table of its own, which its calls change.
#[derive(Clone)]
pub struct Mailboxes {
    proved: ProvedTable,
    second: Layout,
}

#[derive(Clone)]
struct ProvedTable {
    records: Vec<luspemaro::Record>,
    count: usize,
    area: Vec<u8>,
    summary: Vec<luspemaro::Summary>,
}

pub type Check = fn(Lent) -> bool;
pub type CheckList = fn(&[u8]) -> bool;
pub type Matches = fn(&[u8], &[u8]) -> bool;
/// Of a command, the answer's length, the count that is given back, and whether a row changed.
pub type Answer = fn(&mut Mailboxes, Asked, &mut [u8]) -> Result<Answered, u8>;
/// A compaction, or a summary counted afresh.
pub type Change = fn(&mut Mailboxes) -> Result<(), u8>;
/// Of a namespace list and a log: the first frame of 43 that differs, 0 where all agree, or the frame that stopped it.
pub type Replays = fn(&mut Mailboxes, &[u8], &[u8]) -> Result<u64, u64>;
/// Of a walk of a reader, with an option byte.
pub type Collect = fn(u8, Lent, u8, &mut [u8], &mut [u8], &mut [u8]) -> Result<(usize, usize), u8>;
pub type WriteLine = fn(u16, &[u8], u8, &mut [u8]) -> Result<usize, u8>;
/// Of a tag, a number of options, a reference and a packed list of patterns.
pub type JoinPacked = fn(&[u8], u8, &[u8], &[u8], &mut [u8]) -> Result<usize, u8>;
/// Of patterns of any length.
pub type Join = fn(&[u8], ListOptions, &[u8], &[&[u8]], &mut [u8]) -> Result<usize, u8>;

pub const CHECK_TABLE: [Check; 2] = [
    |table| match table {
        Lent::Packed(bytes) => luspemaro::check_table(bytes),
        Lent::Records(mailboxes) => luspemaro::check_records(mailboxes.proved()),
    },
    |table| second::check_table(table.second()),
];
pub const CHECK_NAMESPACES: [CheckList; 2] =
    [luspemaro::check_namespaces, second::check_namespaces];
pub const MATCHES: [Matches; 2] = [luspemaro::matches, second::matches];

pub const ANSWER: [Answer; 2] = [
    |table, Asked { reader, list, line }, out| {
        let answered = luspemaro::answer_from(reader, table.proved.lend(), list, line, out)
            .map_err(luspemaro::Refusal::number)?;
        table.proved.count = answered.count;
        Ok(answered)
    },
    |table, Asked { reader, list, line }, out| {
        let answered = table.second.lend(|lent| second::answer(reader, lent, list, line, out));
        let second::Answered { length, changed, .. } = answered.map_err(Refusal::number)?;
        Ok(Answered { length, count: table.second.count, changed })
    },
];

pub const COMPACT: [Change; 2] = [
    |table| {
        let ProvedTable { records, count, area, summary } = &mut table.proved;
        luspemaro::compact(records, *count, area, summary).map_err(luspemaro::Refusal::number)
    },
    |table| table.second.lend(second::compact).map_err(Refusal::number),
];

pub const SUMMARIZE: [Change; 2] = [
    |table| {
        let ProvedTable { records, count, area, summary } = &mut table.proved;
        luspemaro::summarize(records, *count, area, summary).map_err(luspemaro::Refusal::number)
    },
    |table| table.second.lend(second::summarize).map_err(Refusal::number),
];

pub const REPLAY: [Replays; 2] = [
    |table, list, log| {
        let report = luspemaro::replay(table.proved.lend(), list, log);
        table.proved.reported(report)
    },
    |table, list, log| {
        let verdict = table.second.lend(|lent| second::replay(lent, list, log));
        match verdict {
            second::replay::Verdict::Agree => Ok(0),
            second::replay::Verdict::Differs(frame) => Ok(frame),
            second::replay::Verdict::Stopped(Stop { frame, .. }) => Err(frame),
        }
    },
];

/// A piece of a log by the proved library, and what it reports; none where the piece is not taken.
pub fn feed_replay(
    table: &mut Mailboxes,
    replay: &mut Replay,
    list: &[u8],
    piece: &[u8],
) -> Option<Result<u64, u64>> {
    let report = replay.feed(table.proved.lend(), list, piece)?;
    Some(table.proved.reported(report))
}

pub const COLLECT: [Collect; 2] = [
    |reader, table, option, scratch, found, pending| {
        let walked = match table {
            Lent::Packed(bytes) => {
                luspemaro::collect_packed_from(reader, bytes, option, scratch, found, pending)
            }
            Lent::Records(mailboxes) => {
                let table = mailboxes.proved();
                luspemaro::collect_from(reader, table, option, scratch, found, pending)
            }
        };
        walked.map(|walked| (walked.commands, walked.found)).map_err(WalkRefusal::number)
    },
    |reader, table, option, scratch, found, pending| {
        second::collect(reader, table.second(), option, scratch, found, pending)
            .map_err(Refusal::number)
    },
];

pub const WRITE_LINE: [WriteLine; 2] = [
    |attributes, name, criteria, out| {
        luspemaro::write_parts(attributes, name, criteria, out).map_err(luspemaro::Refusal::number)
    },
    |attributes, name, criteria, out| {
        second::write_parts(attributes, name, criteria, out).map_err(Refusal::number)
    },
];

pub const JOIN_PACKED: [JoinPacked; 2] = [
    |tag, options, reference, list, out| {
        luspemaro::join_packed(tag, options, reference, list, out)
            .map_err(luspemaro::Refusal::number)
    },
    |tag, options, reference, list, out| {
        second::join_packed(tag, options, reference, list, out).map_err(Refusal::number)
    },
];

pub const JOIN: [Join; 2] = [
    |tag, options, reference, patterns, out| {
        luspemaro::join(tag, options, reference, patterns, out).map_err(luspemaro::Refusal::number)
    },
    |tag, options, reference, patterns, out| {
        second::join(tag, options.bits(), reference, patterns, out).map_err(Refusal::number)
    },
];

impl ProvedTable {
    fn lend(&mut self) -> RecordsMut<'_> {
        let ProvedTable { records, count, area, summary } = self;
        RecordsMut { records, count: *count, area, summary }
    }

    /// Takes the count of a report, and gives the rest of it.
    fn reported(&mut self, Replayed { verdict, count }: Replayed) -> Result<u64, u64> {
        self.count = count;
        match verdict {
            Verdict::Agree => Ok(0),
            Verdict::Differs(frame) => Ok(frame as u64),
            Verdict::Refused(frame) => Err(frame as u64),
        }
    }
}

impl Lent<'_> {
    fn second(&self) -> Table<'_> {
        match self {
            Lent::Packed(bytes) => Table::Packed(bytes),
            Lent::Records(mailboxes) => Table::Records(mailboxes.second.as_records()),
        }
    }
}

impl Mailboxes {
    pub fn new(second: Layout) -> Mailboxes {
        let records = second.records.iter().map(proved_record).collect();
        let (count, area) = (second.count, second.area.clone());
        let proved = ProvedTable { records, count, area, summary: proved_numbers(&second) };
        Mailboxes { proved, second }
    }

    /// The table as the second program has it.
    pub fn layout(&self) -> &Layout {
        &self.second
    }

    /// Makes so many of the records rows, with the summary of these.
    pub fn set_count(&mut self, count: usize) {
        if self.second.count != count {
            set_count(&mut self.second, count);
            self.proved.count = count;
            self.proved.summary = proved_numbers(&self.second);
        }
    }

    /// The first place in which the two tables differ: count, number of the summary, record or byte of the area.
    pub fn difference(&self) -> Option<String> {
        let (proved, second) = (&self.proved, &self.second);
        if proved.count != second.count {
            return Some(format!("count {}, and {} by the second", proved.count, second.count));
        }
        let mut numbers = proved.summary.iter().zip(&second.summary).enumerate();
        let is_other = |number: u64, other: &second::Summary| number != other.number();
        if let Some((at, pair)) = numbers.find(|(_, (one, other))| is_other(one.0, other)) {
            return Some(format!("number {at} of the summary: {pair:?}"));
        }
        let mut records = proved.records.iter().zip(&second.records).enumerate();
        if let Some((at, pair)) = records.find(|(_, (one, other))| **one != proved_record(other)) {
            return Some(format!("record {at}: {pair:?}"));
        }
        let mut bytes = proved.area.iter().zip(&second.area).enumerate();
        let (at, pair) = bytes.find(|(_, (one, other))| one != other)?;
        Some(format!("byte {at} of the area: {pair:?}"))
    }

    /// The proved library's table of this one beside the second program's of another.
    pub fn beside(&self, other: &Mailboxes) -> Mailboxes {
        Mailboxes { proved: self.proved.clone(), second: other.second.clone() }
    }

    /// Flags, readers and names of the rows that the proved library has, of a table that passes.
    pub fn proved_rows(&self) -> Vec<(u16, u8, &[u8])> {
        let ProvedTable { records, count, area, .. } = &self.proved;
        let name = |row: &luspemaro::Record| &area[usize::from(row.start)..][..row.len.into()];
        records[..*count].iter().map(|row| (row.flags, row.readers, name(row))).collect()
    }

    /// Makes one of the two tables what it is in another of as many records, bytes and numbers.
    pub fn restore(&mut self, who: usize, other: &Mailboxes) {
        if who == SECOND {
            self.second.records.copy_from_slice(&other.second.records);
            self.second.area.copy_from_slice(&other.second.area);
            self.second.summary.copy_from_slice(&other.second.summary);
        } else {
            self.proved.records.copy_from_slice(&other.proved.records);
            self.proved.area.copy_from_slice(&other.proved.area);
            self.proved.summary.copy_from_slice(&other.proved.summary);
        }
    }

    fn proved(&self) -> luspemaro::Records<'_> {
        let ProvedTable { records, count, area, summary } = &self.proved;
        luspemaro::Records { records, count: *count, area, summary }
    }
}

fn proved_numbers(second: &Layout) -> Vec<luspemaro::Summary> {
    second.summary.iter().map(|summary| luspemaro::Summary(summary.number())).collect()
}

fn proved_record(record: &second::Record) -> luspemaro::Record {
    let second::Record { flags, start, len, readers } = *record;
    luspemaro::Record { flags, start, len, readers }
}

impl fmt::Display for Lent<'_> {
    fn fmt(&self, formatter: &mut fmt::Formatter) -> fmt::Result {
        match self {
            Lent::Packed(bytes) => write!(formatter, "{}", show_table(bytes)),
            Lent::Records(mailboxes) => write!(formatter, "{}", show_layout(mailboxes.layout())),
        }
    }
}
