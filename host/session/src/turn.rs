//! Whose turn it is in a run: a line of the session, or this tool's own command.

use std::fmt;

/// Whose a frame is.
#[derive(Clone, Copy, Debug, PartialEq, Eq)]
pub enum Turn {
    /// The session's, by its line.
    Line(u64),
    /// This tool's own command at the end.
    Own,
}

impl fmt::Display for Turn {
    fn fmt(&self, formatter: &mut fmt::Formatter) -> fmt::Result {
        match self {
            Turn::Line(line) => write!(formatter, "line {line}"),
            Turn::Own => write!(formatter, "at the end, this tool's own command"),
        }
    }
}

/// What this tool's own command is for.
pub const OWN: &str = "sent by this tool: after the last row or entry the session asks nothing";
