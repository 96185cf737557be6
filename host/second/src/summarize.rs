//! The first summary of a table (document 02, W13).

use crate::records::RecordsMut;
use crate::refusal::Refusal;
use crate::summary::counted_afresh;

/// Counts the first summary of a table: the numbers of its rows, while those of spare records stay. A table that
/// does not pass the rest of check 1 is 1, and no number changes. What the numbers hold is not looked at.
pub fn summarize(table: &mut RecordsMut) -> Result<(), Refusal> {
    let lent = table.as_records();
    let rows = lent.rows_without_summary().map_err(|_| Refusal::Table)?;
    let counted = counted_afresh(&rows);
    table.summary[..counted.len()].copy_from_slice(&counted);
    Ok(())
}
