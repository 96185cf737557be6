//! The difference of two mailbox tables: names in one alone, and flags and readers that differ, in
//! document 01's walk order.
//!
//! A table is read from a session file, a file of frames, a packed table, a recorded answer to LIST and LSUB
//! ([`kind`] tells these apart by their content), a tree of folders or of mbox files, or a list of names
//! ([`side`]). What is in a store, and what of it was left out, is what the importer says of it. What
//! cannot be taken into the comparison is reported by its name, and then the tables are never called alike.
//!
//! Nothing here is proved.

mod call;
mod difference;
mod kind;
mod order;
mod second_program;
mod sent;
mod show;
mod side;

pub use call::{read_call, Call, Input, USAGE};
pub use difference::{compare, Comparison, NameDifference, Said};
pub use kind::Kind;
pub use order::WalkPlace;
pub use show::{json_text, text};
pub use side::{read_side, OwnRow, Side};
