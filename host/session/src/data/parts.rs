//! What the data of a session has beside its items.

use formats::sha256::Sum;

use crate::kept::Kept;
use crate::second_program::Stored;
use crate::summary::RunSummary;

/// A line for whoever reads the session.
#[derive(Clone, Copy, Debug)]
pub enum Remark<'r> {
    Comment(&'r str),
    /// What is reported of the order of the rows.
    Order(&'r str),
}

impl Remark<'_> {
    pub fn kind_and_text(&self) -> (&'static str, &str) {
        match self {
            Remark::Comment(text) => ("comment", text),
            Remark::Order(text) => ("order", text),
        }
    }
}

/// What came of a session.
#[derive(Clone, Copy)]
pub struct End<'e> {
    pub summary: &'e RunSummary,
    pub kept: &'e Kept,
    /// The same, as the second program has it.
    pub stored: &'e Stored,
    pub session_sum: Sum,
    /// Why the session was not run to its end, if it was not.
    pub stopped: Option<&'e str>,
}
