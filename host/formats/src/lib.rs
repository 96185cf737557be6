//! What the tools read and write: rows of a table, entries of a namespace list, frames, logs of a night, lines of an
//! answer, session files, and bytes as text that can be taken for nothing else.
//!
//! Nothing here decides what a command is answered, or whether a table passes: that is the proved program's and the
//! proved library's part. The second program, which is there to disagree with them, reads its own input with its own
//! readers and is not used here; the comparison checks that both read the same.
//!
//! | Module | What it holds |
//! |---|---|
//! | `name`, `readers`, `rows`, `namespaces` | names; readers and sets of them; flags, rows and packed tables; entries |
//! | `sizes` | the buffers of the program of frames, and those with which nothing is refused for its length |
//! | `refusal`, `walk_options` | the numbers of refusal with their meanings; the option byte of a walk |
//! | `hex`, `frames`, `reply`, `log` | hexadecimal; frames; answers to frames; the log of a night |
//! | `quoted`, `list_line` | quoted strings; the lines of an answer that name a mailbox |
//! | `text`, `utf7`, `show` | bytes as text, modified UTF-7, frames and answers as lines with labels |
//! | `json`, `csv`, `sha256`, `date` | JSON and CSV in ASCII alone, sums, times in UTC |
//! | `words` | the words of a session file |
//! | `source`, `parse`, `item`, `items`, `order`, `session`, `error` | session files, from bytes to frames |

pub mod csv;
pub mod date;
pub mod error;
pub mod frames;
pub mod hex;
pub mod item;
mod items;
pub mod json;
pub mod list_line;
pub mod log;
pub mod name;
pub mod namespaces;
mod order;
mod parse;
pub mod quoted;
pub mod readers;
pub mod refusal;
pub mod reply;
pub mod rows;
pub mod session;
pub mod sha256;
pub mod show;
pub mod sizes;
pub mod source;
pub mod text;
pub mod utf7;
pub mod walk_options;
pub mod words;
