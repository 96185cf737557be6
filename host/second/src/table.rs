//! A mailbox table in either of its forms, and check 1 of it.

use crate::fault::ListFault;
use crate::packed;
use crate::records::Records;
use crate::rows::Row;

/// A mailbox table as it is stored.
#[derive(Clone, Copy, Debug)]
pub enum Table<'t> {
    /// Rows without a gap, each with its name.
    Packed(&'t [u8]),
    /// Records beside their names.
    Records(Records<'t>),
    /// Records that passed, within one walk, whose summary is not counted again: "no edit falls within a walk".
    Counted(Records<'t>),
}

impl<'t> Table<'t> {
    /// "An empty table passes."
    pub const EMPTY: Table<'static> = Table::Packed(&[]);

    /// The table for the rest of a walk, once it has passed.
    pub(crate) fn counted(self) -> Table<'t> {
        match self {
            Table::Records(records) => Table::Counted(records),
            other => other,
        }
    }
}

/// Check 1.
pub fn check_table(table: Table) -> bool {
    checked_rows(table).is_ok()
}

/// The rows of a table that passes check 1, ascending by name, or the first row that breaks a rule.
pub fn checked_rows(table: Table<'_>) -> Result<Vec<Row<'_>>, ListFault> {
    match table {
        Table::Packed(bytes) => packed::checked_rows(bytes),
        Table::Records(records) => records.checked_rows(),
        Table::Counted(records) => records.rows_without_summary(),
    }
}
