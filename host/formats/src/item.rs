//! What a session is made of.

use crate::frames::SentFrame;
use crate::refusal::Refusal;

/// One item, in the order in which it is sent and printed.
#[derive(Clone, Debug)]
pub struct Item {
    /// The line of the file where it starts, counted from 1.
    pub line: u64,
    pub content: Content,
}

#[derive(Clone, Debug)]
pub enum Content {
    /// A line that starts with `#`, for whoever reads the session.
    Comment(String),
    /// The mailbox lines after this one stay in the order in which they stand.
    AsGiven,
    /// So many mailbox lines after this one were put in order.
    Sorted(usize),
    Sent(Sent),
}

/// A frame of the session.
#[derive(Clone, Debug)]
pub struct Sent {
    pub frame: SentFrame,
    /// How many characters it has; more than the frame's text if only the start of it is kept.
    pub length: u64,
    pub origin: Origin,
    /// What the item says that it is refused with.
    pub expected: Option<Refusal>,
}

/// What a frame was made from.
#[derive(Clone, Debug, PartialEq, Eq)]
pub enum Origin {
    /// A mailbox line, with its name.
    Mailbox(Vec<u8>),
    Namespace,
    /// A walk with larger buffers, through the library: the frame of the walk is not sent to the program.
    LargeWalk,
    Other,
}

impl Sent {
    /// Whether the frame's text is the start alone.
    pub fn is_overlong(&self) -> bool {
        self.length > self.frame.text.len() as u64
    }
}
