//! What the second program, which is not proved, says of a table: whether it passes, or else why it does not, and what the
//! edits of a session make of it. The output names it. No other module of this crate uses the second program.

pub use session::second_program::{table_fault, EditedTable};

/// Whether a packed table passes check 1.
pub fn passes(rows: &[u8]) -> bool {
    table_fault(rows).is_none()
}
