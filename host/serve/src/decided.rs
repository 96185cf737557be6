//! A client, and the result of one of its commands.

use std::fmt::{self, Display};
use std::time::Duration;

use luspemaro::{Reader, Refusal};

use crate::log::Peer;
use crate::words::Own;

/// The result of a command.
#[derive(Debug, PartialEq, Eq)]
pub enum Decided {
    /// So many bytes of the buffer.
    Answered(usize),
    /// The library refuses its word, which the server answers by itself.
    Own(Own),
    /// By the library.
    Refused(Refusal),
    /// The edit, the record or the log cannot be written, so nothing was done.
    NotKept(&'static str),
}

/// A client as the server knows it, and how it is served.
#[derive(Clone, Debug)]
pub struct Client {
    pub peer: Peer,
    pub reader: Reader,
    /// Whether LOGIN is answered OK.
    pub accepts_login: bool,
    /// How long it may go without a whole command; none is for ever.
    pub idle: Option<Duration>,
}

impl Display for Decided {
    fn fmt(&self, formatter: &mut fmt::Formatter) -> fmt::Result {
        match self {
            Decided::Answered(length) => write!(formatter, "answered {length} bytes"),
            Decided::Own(own) => write!(formatter, "refused 5, server {}", own.status()),
            Decided::Refused(refusal) => write!(formatter, "refused {}", refusal.number()),
            Decided::NotKept(why) => write!(formatter, "server NO: {why}"),
        }
    }
}
