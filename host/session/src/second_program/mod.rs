//! All that the second program says, which is not proved and decides nothing: its own answer to every frame, why something
//! is refused, what an edit does, what is hidden from a reader, and why a line of an answer is there. No other module of
//! this crate uses the second program.

mod edits;
mod faults;
mod says;
mod short_buffers;
mod stored;
mod why;

pub use edits::EditedTable;
pub use faults::{namespaces_fault, table_fault};
pub use says::second_says;
pub use stored::{Stored, NOT_REFUSED, UNPROVED};
pub use why::Explained;
