//! A table that is lent to be changed.

// No test uses all of it.
#![allow(dead_code)]

use luspemaro::{
    answer_from, compact, summarize, Answered, Record, Records, RecordsMut, Refusal, Summary,
};

/// What the numbers of spare records hold, which nothing looks at.
pub const SPARE: Summary = Summary(0x1234_5678_9ABC_DEF0);

/// Records over an area, with their summary.
#[derive(Clone, Debug, PartialEq, Eq)]
pub struct Lent {
    pub records: Vec<Record>,
    pub count: usize,
    pub area: Vec<u8>,
    pub summary: Vec<Summary>,
}

impl Lent {
    /// The summary is counted, or zero for rows that do not pass.
    pub fn new(records: &[Record], count: usize, area: &[u8]) -> Lent {
        let mut summary = vec![SPARE; records.len()];
        summary.iter_mut().take(count).for_each(|number| *number = Summary::default());
        // Rows that do not pass are refused with 1 whatever their numbers are.
        let _ = summarize(records, count, area, &mut summary);
        Lent { records: records.to_vec(), count, area: area.to_vec(), summary }
    }

    pub fn as_records(&self) -> Records<'_> {
        let Lent { records, count, area, summary } = self;
        Records { records, count: *count, area, summary }
    }

    pub fn lend(&mut self) -> RecordsMut<'_> {
        let Lent { records, count, area, summary } = self;
        RecordsMut { records, count: *count, area, summary }
    }

    /// Answers a command; the count is the one that is given back.
    pub fn answer(&mut self, reader: u8, line: &[u8], out: &mut [u8]) -> Result<Answered, Refusal> {
        let answered = answer_from(reader, self.lend(), b"", line, out);
        self.count = answered.map_or(self.count, |answered| answered.count);
        answered
    }

    pub fn compact(&mut self) -> Result<(), Refusal> {
        compact(&mut self.records, self.count, &mut self.area, &self.summary)
    }

    pub fn summarize(&mut self) -> Result<(), Refusal> {
        summarize(&self.records, self.count, &self.area, &mut self.summary)
    }
}
