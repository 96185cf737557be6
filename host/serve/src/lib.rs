//! An IMAP4rev1 server over the proved library, for the names of mailboxes alone.
//!
//! Everything about LIST, LSUB, NAMESPACE, SUBSCRIBE and UNSUBSCRIBE is decided by the library: the
//! feeder cuts the bytes of a connection into commands, and the command entry answers them. This crate
//! moves bytes, answers the words that are not of these, and keeps the table.
//!
//! | Module | What it holds |
//! |---|---|
//! | `rooms` | the numbers of `include/luspemaro.h`: rooms and stacks |
//! | `load` | the rows and entries of a session file, a file of frames or a packed table |
//! | `table` | the table as records, and one command over it |
//! | `second_program` | why a table does not pass, as the second program sees it, which is not proved |
//! | `frame_file` | a file of frames that is only added to |
//! | `review` | the accepted edits, kept so that no crash loses one |
//! | `frame_log` | the record: every command with what the library answered |
//! | `log` | a line for each connection, command and line of the server itself |
//! | `keeping` | review, record and log together: a command is written where it has to be, or nowhere |
//! | `turns` | turns that are shared or alone, in the order in which they are asked for |
//! | `decided` | a client, and the result of one of its commands |
//! | `account` | the table with what is kept of it: one command decided and kept |
//! | `words` | tag and word of a line, and what is answered to words that the library does not know |
//! | `connection` | one connection: bytes in, answers out |
//! | `listen` | connections of a socket: threads, and the limits of their number and idle time |
//! | `start` | what is said of the table at the start |
//! | `clock` | times in UTC, for the log and the name of a record |
//! | `stop` | waiting, and the end that SIGTERM and SIGINT ask for |
//! | `activation` | a socket that is handed over in the environment |
//! | `system` | the calls of the C library behind the two, the only unsafe code |
//!
//! Nothing here is proved. docs/SERVING.md says what a client is answered.

mod account;
mod activation;
mod clock;
mod connection;
mod decided;
mod frame_file;
mod frame_log;
mod keeping;
mod listen;
mod load;
mod log;
mod review;
mod rooms;
pub mod second_program;
mod start;
mod stop;
mod system;
mod table;
mod turns;
mod words;

pub use account::Account;
pub use activation::handed_over;
pub use clock::dated;
pub use connection::{converse, Ending};
pub use decided::{Client, Decided};
pub use frame_log::FrameLog;
pub use keeping::Keeping;
pub use listen::{listen, Limits};
pub use load::{load, LoadError, Loaded};
pub use log::{word_text, Log, Peer};
pub use review::{Review, ReviewError};
pub use rooms::{Rooms, MAX_ROWS, THREAD_STACK};
pub use start::start_text;
pub use stop::{Stop, Woken, END_WAIT};
pub use table::{records_of, rows_of, Table, TableError};
pub use words::CAPABILITIES;
