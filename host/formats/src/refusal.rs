//! The refusals, as document 01 lists them under 'Numbers of refusal', and those of document 02.

use std::fmt;

/// A number of refusal, 1 to 16.
#[derive(Clone, Copy, Debug, PartialEq, Eq)]
pub struct Refusal(u8);

/// What each number means, from 1 on, in the words of the papers.
const MEANINGS: [&str; 16] = [
    "the table does not pass, or no room for a row",
    "the namespace list does not pass, or no room for an entry",
    "line shape",
    "tag, or the rest after a known word, off the grammar",
    "other word",
    "unknown option, one with a value, or an unlawful option byte",
    "RECURSIVEMATCH without SUBSCRIBED or SPECIAL-USE",
    "over 8 patterns or 255 bytes",
    "answer longer than its buffer",
    "find does not fit",
    "pending name does not fit",
    "not a LIST line, or not the parts of one",
    "bad frame",
    "unlawful name, or below a row with no inferiors",
    "no room to insert a row",
    "a reader above 7, or an edit from another reader than 0",
];

impl Refusal {
    /// Check 1: the table does not pass, or the program has no place for a row.
    pub const TABLE: Refusal = Refusal(1);
    /// Check 2: the namespace list does not pass, or the program has no place for an entry.
    pub const NAMESPACES: Refusal = Refusal(2);
    /// Program only: a bad frame.
    pub const FRAME: Refusal = Refusal(13);

    /// The refusal of a number; none for a number that the papers do not have.
    pub fn from_number(number: u8) -> Option<Refusal> {
        (1..=MEANINGS.len()).contains(&usize::from(number)).then_some(Refusal(number))
    }

    pub const fn number(self) -> u8 {
        self.0
    }

    /// What it means, in the words of the papers.
    pub const fn meaning(self) -> &'static str {
        MEANINGS[self.0 as usize - 1]
    }
}

/// The number and the meaning.
impl fmt::Display for Refusal {
    fn fmt(&self, formatter: &mut fmt::Formatter) -> fmt::Result {
        write!(formatter, "{}: {}", self.number(), self.meaning())
    }
}
