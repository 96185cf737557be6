//! Why a session cannot be read.

use std::error::Error;
use std::fmt;
use std::io;

/// A line that is no item.
#[derive(Debug)]
pub struct BadLine {
    /// Counted from 1.
    pub number: u64,
    pub message: String,
}

#[derive(Debug)]
pub enum SessionError {
    Unreadable(io::Error),
    /// Lines that are no items, of which there may be more than are kept.
    Lines {
        bad: Vec<BadLine>,
        more: u64,
    },
}

impl SessionError {
    pub(crate) fn line(number: u64, message: String) -> SessionError {
        SessionError::Lines { bad: vec![BadLine { number, message }], more: 0 }
    }
}

impl fmt::Display for BadLine {
    fn fmt(&self, formatter: &mut fmt::Formatter) -> fmt::Result {
        write!(formatter, "line {}: {}", self.number, self.message)
    }
}

/// A line of text for each bad line.
impl fmt::Display for SessionError {
    fn fmt(&self, formatter: &mut fmt::Formatter) -> fmt::Result {
        match self {
            SessionError::Unreadable(error) => write!(formatter, "{error}"),
            SessionError::Lines { bad, more } => {
                let mut lines: Vec<String> = bad.iter().map(BadLine::to_string).collect();
                if *more > 0 {
                    lines.push(format!("and {more} more"));
                }
                write!(formatter, "{}", lines.join("\n"))
            }
        }
    }
}

impl Error for SessionError {}

impl From<io::Error> for SessionError {
    fn from(error: io::Error) -> SessionError {
        SessionError::Unreadable(error)
    }
}
