//! The second program of the listing rules: written from the papers alone, document 01 and of
//! document 02 requests W1 to W7, W9 and W11 to W14, to be compared with the proved program and to be the
//! plain measure of its speed.
//!
//! The entries are those of document 01: the two checks, the command entry, the line writer,
//! the line reader, the collector and the frames of the program; W2's feeder; and W7's operation that
//! moves names together; W11's joined command, written from its parts; and W13's summary, which is counted pair
//! by pair, at each check and after each edit; and W14's replay of a log. Each command and each walk comes
//! from a reader (W9). A table is given in either of its forms, and as records for the command entry, which
//! edits them, and for W7's. Left out, as there: login, SELECT, FETCH, modified UTF-7, sockets.

pub mod collector;
pub mod command;
mod compaction;
mod cursor;
pub mod fault;
pub mod feeder;
pub mod frames;
pub mod joined;
pub mod line;
mod listing;
pub mod literal;
mod lsub;
pub mod name;
pub mod namespaces;
pub mod packed;
mod pattern;
pub mod quoted;
pub mod readers;
pub mod records;
pub mod refusal;
pub mod replay;
pub mod rows;
mod server;
pub mod shape;
pub mod store;
mod subscriptions;
mod summarize;
mod summary;
pub mod table;

pub use collector::collect;
pub use compaction::compact;
pub use feeder::{Event, Feeder};
pub use joined::{join, join_packed};
pub use line::{read_line, write_line, write_parts, Criteria, Line};
pub use listing::meets_criteria;
pub use namespaces::check_namespaces;
pub use pattern::{ends_in_percent, matches};
pub use readers::{Reader, Readers};
pub use records::{Record, Records, RecordsMut};
pub use refusal::Refusal;
pub use replay::replay;
pub use server::{answer, answer_reading, Answered};
pub use store::Store;
pub use summarize::summarize;
pub use summary::Summary;
pub use table::{check_table, Table};
