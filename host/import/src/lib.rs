//! Tables from real stores: what a store says of its mailboxes, as a session file that `./run` reads.
//!
//! A store is a tree of folders ([`maildir`]) or of mbox files ([`mbox`]), a recorded answer of a server to
//! LIST and LSUB ([`answer`]), or a list of names: plain ([`names`]), of doveadm ([`doveadm`]) or of Cyrus
//! ([`cyrus`]). Each gives what it says as [`Found`]; [`Gathered`] brings that together under the names of
//! document 01 and gives the rows of a table that passes check 1; [`session_text`] writes them. Whatever
//! does not fit is [`Told`] by its name: nothing is left out in silence.
//!
//! A name stays the bytes that the store has, but for its delimiter, which becomes "/", and for INBOX,
//! which has one spelling. Modified UTF-7 is not touched; what it says stands beside it in a comment.

pub mod answer;
mod answer_lines;
mod call;
pub mod cyrus;
pub mod doveadm;
mod error;
mod found;
mod gathered;
mod kind;
pub mod maildir;
mod marks;
pub mod mbox;
mod mention;
pub mod names;
mod output;
mod python;
mod response;
mod store;
mod strays;
pub mod subscriptions;
mod told;
mod tree;
mod uses;
mod write;

pub use call::{read_call, Call, CallError, USAGE};
pub use error::StoreError;
pub use found::{Found, Said};
pub use gathered::{Gathered, Room, StoreRow};
pub use kind::{ListForm, Store};
pub use output::Output;
pub use store::{read_bytes, read_store, read_text, Contents, TextForm};
pub use told::Told;
pub use uses::read_uses;
pub use write::{mailbox_lines, rows_text, session_text, Asked, MadeFrom};
