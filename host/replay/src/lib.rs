//! The replay of a night (document 02, W14) for people, behind `./replay` and `./verify`.
//!
//! A log has a frame of 43 for each command and a frame of 41 or 52 for what was answered, as `./serve --record` writes
//! it after the rows and entries of its table. Every command is run again by the proved library, which compares what it
//! answers now with what was recorded, and reports: that all agree, the first frame of 43 that differs, or 13 and the
//! frame that stopped it. That is the verdict. This crate reads files, lends memory and tells what the library reports;
//! it is not proved.
//!
//! | Module | What it holds |
//! |---|---|
//! | `table` | the table as the program lays it out, lent to the library |
//! | `pieces` | a log in pieces of a fixed size, with its sum |
//! | `start` | the table and the list that a log starts from: of a file, or of the log's own first lines |
//! | `follow` | the log fed to the library, exchange by exchange |
//! | `followed` | what is kept of it |
//! | `difference` | a command whose recorded answer differs: what is missing, what is too much, and why |
//! | `served` | the server's own log of the night: the time and the connection of each command |
//! | `night` | one night: files in, an account out |
//! | `account` | the account as text |
//! | `judge` | what stands against a green verdict |
//! | `page` | the account as a page |
//! | `proof` | what `./verify` found proved, with the sums |
//! | `kit` | the page of `./verify` |
//! | `second_program` | what the second program says of a difference or a stop, which is not proved |
//! | `rooms` | the stack that the library needs |
//!
//! Memory does not grow with the log: of differences and commands the first are kept, and all are counted.

mod account;
mod difference;
mod follow;
mod followed;
mod judge;
mod kit;
mod night;
mod page;
mod pieces;
mod proof;
mod rooms;
mod second_program;
mod served;
mod start;
mod table;

pub use account::{text, verdict_text};
pub use difference::Difference;
pub use follow::Following;
pub use followed::{Contradicted, Counts, Followed, Now, SentCommand, Stopped};
pub use kit::{kit_page, kit_text, Verified};
pub use night::{in_stack, replay_night, Account, Failure, Night, Progress};
pub use page::{page, LibraryBuild, PageFacts};
pub use pieces::Pieces;
pub use proof::{CrateProof, Proof};
pub use second_program::store_of;
pub use served::ServedLog;
pub use start::{LogStart, Start};
pub use table::KeptTable;
