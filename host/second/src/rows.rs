//! The rows of a mailbox table: their flags, and what check 1 asks of them however they are stored.

use std::ops::Range;

use crate::fault::ListFault;
use crate::name;
use crate::readers::{Reader, Readers};

/// Document 01: "At most 512 rows".
pub const MAX_ROWS: usize = 512;

/// The flags of a row, a set with named members.
#[derive(Clone, Copy, Debug, PartialEq, Eq)]
pub struct Flags(u16);

impl Flags {
    /// "An ancestor without a row is an implied name: it does not exist, and is neither
    /// subscribed nor remote."
    pub const IMPLIED: Flags = Flags(0);
    pub const EXISTS: Flags = Flags(1 << 0);
    pub const SUBSCRIBED: Flags = Flags(1 << 1);
    pub const REMOTE: Flags = Flags(1 << 2);
    pub const NO_SELECT: Flags = Flags(1 << 3);
    pub const NO_INFERIORS: Flags = Flags(1 << 4);
    pub const MARKED: Flags = Flags(1 << 5);
    pub const UNMARKED: Flags = Flags(1 << 6);
    pub const ALL: Flags = Flags(1 << 8);
    pub const ARCHIVE: Flags = Flags(1 << 9);
    pub const DRAFTS: Flags = Flags(1 << 10);
    pub const FLAGGED: Flags = Flags(1 << 11);
    pub const JUNK: Flags = Flags(1 << 12);
    pub const SENT: Flags = Flags(1 << 13);
    pub const TRASH: Flags = Flags(1 << 14);
    /// The special uses, bits 8 to 14.
    pub const USES: Flags = Flags(0x7F00);
    /// Bits 7 and 15 "must be 0".
    const UNNAMED: Flags = Flags(1 << 7 | 1 << 15);

    pub const fn from_bits(bits: u16) -> Flags {
        Flags(bits)
    }

    pub const fn bits(self) -> u16 {
        self.0
    }

    /// Whether some member of `wanted` is in the set.
    pub const fn has(self, wanted: Flags) -> bool {
        self.0 & wanted.0 != 0
    }

    /// The members of both sets.
    pub const fn with(self, added: Flags) -> Flags {
        Flags(self.0 | added.0)
    }

    pub fn add(&mut self, added: Flags) {
        self.0 |= added.0;
    }

    pub fn remove(&mut self, removed: Flags) {
        self.0 &= !removed.0;
    }

    /// The first rule for flags that these break.
    fn broken_rule(self) -> Option<&'static str> {
        if self.has(Flags::UNNAMED) {
            Some("bits 7 and 15 of the flags must be 0")
        } else if !self.has(Flags::EXISTS) && self != Flags::SUBSCRIBED {
            Some("a row that does not exist has flags exactly 0002")
        } else if self.has(Flags::MARKED) && self.has(Flags::UNMARKED) {
            Some("marked and unmarked are not both set")
        } else {
            None
        }
    }
}

/// One row of the table.
#[derive(Clone, Copy, Debug)]
pub struct Row<'t> {
    pub flags: Flags,
    /// Who sees the row. Check 1 asks nothing of them.
    pub readers: Readers,
    pub name: &'t [u8],
}

/// The rows that a reader sees: "A row hidden from the reader counts as absent". They ascend too.
pub(crate) fn visible_rows<'t>(rows: &[Row<'t>], reader: Reader) -> Vec<Row<'t>> {
    rows.iter().filter(|row| row.readers.has(reader)).copied().collect()
}

/// What check 1 asks of the rows, however they are stored. The fault is told by the places of the
/// rows, which `place` gives for their numbers from 0 on.
pub(crate) fn check_rows(rows: &[Row], place: impl Fn(usize) -> usize) -> Result<(), ListFault> {
    match first_broken(rows) {
        None => Ok(()),
        Some(Broken { row, rule, other }) => {
            Err(ListFault { at: place(row), rule, other: other.map(place) })
        }
    }
}

/// A row that breaks a rule, and the row with which it does, by their numbers from 0 on.
struct Broken {
    row: usize,
    rule: &'static str,
    other: Option<usize>,
}

/// The first row that breaks a rule. Rows before it ascend, which the search for rows below one with
/// no inferiors needs.
fn first_broken(rows: &[Row]) -> Option<Broken> {
    let broken = (0..rows.len()).find_map(|at| broken_alone(rows, at));
    let sound = broken.as_ref().map_or(rows.len(), |broken| broken.row);
    first_below_no_inferiors(&rows[..sound]).or(broken)
}

/// The first rule that a row breaks by itself, or with the row before.
fn broken_alone(rows: &[Row], row: usize) -> Option<Broken> {
    let Row { flags, name, .. } = rows[row];
    if let Some(rule) = name::broken_rule(name) {
        return Some(Broken { row, rule, other: None });
    }
    let before = row.checked_sub(1).filter(|&before| rows[before].name >= name);
    if before.is_some() {
        return Some(Broken { row, rule: "names strictly ascend by bytes", other: before });
    }
    let too_many = (row >= MAX_ROWS).then_some("a table has at most 512 rows");
    let rule = flags.broken_rule().or(too_many)?;
    Some(Broken { row, rule, other: None })
}

/// The rows that are descendants of `name`. In ascending rows they stand side by side.
pub fn rows_below<'r, 't>(rows: &'r [Row<'t>], name: &[u8]) -> &'r [Row<'t>] {
    &rows[places_below(rows, name)]
}

fn places_below(rows: &[Row], name: &[u8]) -> Range<usize> {
    let prefix = name::descendant_prefix(name);
    let start = rows.partition_point(|row| row.name < prefix.as_slice());
    let count = rows[start..].partition_point(|row| row.name.starts_with(&prefix));
    start..start + count
}

/// "no row lies below a row with no inferiors", at any depth. The rows ascend.
fn first_below_no_inferiors(rows: &[Row]) -> Option<Broken> {
    let childless = (0..rows.len()).filter(|&at| rows[at].flags.has(Flags::NO_INFERIORS));
    let below = childless.filter_map(|at| Some((places_below(rows, rows[at].name).next()?, at)));
    let rule = "no row lies below a row with no inferiors";
    below.min().map(|(row, other)| Broken { row, rule, other: Some(other) })
}
