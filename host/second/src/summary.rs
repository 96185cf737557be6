//! The summary beside the table (document 02, W13), counted pair by pair.

use crate::name::is_below;
use crate::rows::{Flags, Row};

/// "four numbers of rows strictly below its name: subscribed local, subscribed remote, existing local, existing
/// remote". The default is that of a record that was freed.
#[derive(Clone, Copy, Debug, Default, PartialEq, Eq)]
pub struct Summary {
    pub subscribed_local: u16,
    pub subscribed_remote: u16,
    pub existing_local: u16,
    pub existing_remote: u16,
}

impl Summary {
    /// The four in one number of 64 bits, in the order of the text, lowest first.
    pub fn from_number(number: u64) -> Summary {
        let count = |place: u32| (number >> (16 * place)) as u16;
        Summary {
            subscribed_local: count(0),
            subscribed_remote: count(1),
            existing_local: count(2),
            existing_remote: count(3),
        }
    }

    pub fn number(self) -> u64 {
        let counts = [
            self.existing_remote,
            self.existing_local,
            self.subscribed_remote,
            self.subscribed_local,
        ];
        counts.into_iter().fold(0, |number, count| number << 16 | u64::from(count))
    }

    /// Counts one row below. One that exists and is subscribed counts twice.
    fn add(&mut self, flags: Flags) {
        let is_remote = u16::from(flags.has(Flags::REMOTE));
        if flags.has(Flags::SUBSCRIBED) {
            self.subscribed_remote += is_remote;
            self.subscribed_local += 1 - is_remote;
        }
        if flags.has(Flags::EXISTS) {
            self.existing_remote += is_remote;
            self.existing_local += 1 - is_remote;
        }
    }
}

/// "what counting afresh gives", for each of the rows: at most 65,535 of them. They ascend, so a row that lies below
/// another comes after it; every such pair is looked at.
pub(crate) fn counted_afresh(rows: &[Row]) -> Vec<Summary> {
    let below = |(at, above): (usize, &Row)| {
        let mut summary = Summary::default();
        let rows = rows[at + 1..].iter().filter(|row| is_below(row.name, above.name));
        rows.for_each(|row| summary.add(row.flags));
        summary
    };
    rows.iter().enumerate().map(below).collect()
}
