//! Mailboxes as records beside their names (document 02, W4 and W9), with their summary (W13).

use std::ops::Range;

use crate::fault::ListFault;
use crate::readers::Readers;
use crate::rows::{check_rows, Flags, Row};
use crate::summary::{counted_afresh, Summary};

/// "the area (at most 32,768 bytes)"
pub const MAX_AREA: usize = 32_768;

/// "records, each with flags, name start and name length" (W4); "Each record gains a set of eight
/// readers" (W9). The default is a record that was freed: all zero.
#[derive(Clone, Copy, Debug, Default, PartialEq, Eq)]
pub struct Record {
    pub flags: u16,
    pub start: u16,
    pub len: u8,
    /// Bit r for reader r.
    pub readers: u8,
}

/// Records "over one area of name bytes".
#[derive(Clone, Copy, Debug)]
pub struct Records<'t> {
    pub records: &'t [Record],
    /// How many of the records are rows. Those after them are spare and not looked at.
    pub count: usize,
    pub area: &'t [u8],
    /// One for each record. Those of spare records are not looked at.
    pub summary: &'t [Summary],
}

/// Records and their area, lent to be changed: by edits (W6), or by names moved together (W7).
#[derive(Debug)]
pub struct RecordsMut<'t> {
    pub records: &'t mut [Record],
    /// "a row count is passed and given back"
    pub count: usize,
    pub area: &'t mut [u8],
    pub summary: &'t mut [Summary],
}

impl RecordsMut<'_> {
    pub fn as_records(&self) -> Records<'_> {
        let RecordsMut { records, count, area, summary } = self;
        Records { records, count: *count, area, summary }
    }
}

impl Record {
    /// Where the name lies, which may be past the area. The end does not wrap around.
    pub fn place(self) -> Range<usize> {
        let start = usize::from(self.start);
        start..start + usize::from(self.len)
    }

    /// The row over an area; one whose name does not lie in it has no name.
    pub(crate) fn row_in(self, area: &[u8]) -> Row<'_> {
        let name = area.get(self.place()).unwrap_or_default();
        let readers = Readers::from_bits(self.readers);
        Row { flags: Flags::from_bits(self.flags), readers, name }
    }
}

impl<'t> Records<'t> {
    /// How many records are lent: "A record is lent only if the run has a number for it".
    pub fn lent(self) -> usize {
        self.records.len().min(self.summary.len())
    }

    /// The rows of records that pass check 1, or the first record that breaks a rule, by its number. "The table's
    /// check grows by the summary: one that disagrees is refusal 1".
    pub(crate) fn checked_rows(self) -> Result<Vec<Row<'t>>, ListFault> {
        let rows = self.rows_without_summary()?;
        let counted = counted_afresh(&rows);
        let rule = "the summary of a record is what counting afresh gives";
        match counted.iter().zip(self.summary).position(|(counted, kept)| counted != kept) {
            None => Ok(rows),
            Some(at) => Err(ListFault { at, rule, other: None }),
        }
    }

    /// The rows of records that pass the rest of check 1.
    ///
    /// The names are compared by their places last, when there are at most 512.
    pub(crate) fn rows_without_summary(self) -> Result<Vec<Row<'t>>, ListFault> {
        let rows = self.rows()?;
        check_rows(&rows, |number| number)?;
        match self.first_overlap() {
            None => Ok(rows),
            Some((at, other)) => {
                Err(ListFault { at, rule: "names do not overlap", other: Some(other) })
            }
        }
    }

    /// The rows that the records mean, not judged any further: "Names lie inside the area (at most
    /// 32,768 bytes)".
    fn rows(self) -> Result<Vec<Row<'t>>, ListFault> {
        let fault = |at, rule| ListFault { at, rule, other: None };
        let too_few = fault(self.records.len(), "there are as many records as the count says");
        let held = self.records.get(..self.count).ok_or(too_few)?;
        if self.count > self.summary.len() {
            return Err(fault(
                self.summary.len(),
                "a record is lent if the summary has a number for it",
            ));
        }
        if self.area.len() > MAX_AREA {
            return Err(fault(self.count, "an area has at most 32,768 bytes"));
        }
        let row = |(at, record): (usize, &Record)| {
            let is_inside = self.area.get(record.place()).is_some();
            is_inside
                .then(|| record.row_in(self.area))
                .ok_or(fault(at, "names lie inside the area"))
        };
        held.iter().enumerate().map(row).collect()
    }

    /// Two records whose names overlap, by their numbers, the higher one first. In the order of
    /// their starts each name ends where the next begins or before it.
    fn first_overlap(self) -> Option<(usize, usize)> {
        let mut numbers: Vec<usize> = (0..self.count).collect();
        let place = |number: usize| self.records[number].place();
        numbers.sort_unstable_by_key(|&number| place(number).start);
        let overlap = |pair: &&[usize]| place(pair[0]).end > place(pair[1]).start;
        let pair = numbers.windows(2).find(overlap)?;
        Some((pair[0].max(pair[1]), pair[0].min(pair[1])))
    }
}
