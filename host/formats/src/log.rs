//! The log of a night (document 02, W14): a frame of 43 for each command, and after it a frame of 41 or 52 for what was
//! answered. Here a log is cut into exchanges, and nothing is run.

use crate::frames::{answer_frame, ANSWER, COMMAND, MAX_DIGITS, REFUSAL};
use crate::hex::bytes_of_hex;

/// "In a log a frame of 41 may have up to 32,770 digits."
pub const MAX_ANSWER_DIGITS: usize = 32_770;
/// The digits with which such a frame begins.
const ANSWER_DIGITS: &[u8] = b"41";

/// What a log has as the answer to a command, or what is answered to it now.
#[derive(Clone, Debug, PartialEq, Eq)]
pub enum Recorded {
    Lines(Vec<u8>),
    /// The number, which need not be one of the papers'.
    Refused(u8),
}

impl Recorded {
    /// Its frame, without LF.
    pub fn frame(&self) -> Vec<u8> {
        answer_frame(match self {
            Recorded::Lines(lines) => Ok(lines),
            Recorded::Refused(number) => Err(*number),
        })
    }
}

/// A command of a log with its answer. The frame is the number of the 43.
#[derive(Clone, Debug, PartialEq, Eq)]
pub struct Exchange {
    pub frame: u64,
    pub reader: u8,
    pub line: Vec<u8>,
    pub recorded: Recorded,
}

/// Where a log is refused with 13.
#[derive(Clone, Copy, Debug, PartialEq, Eq)]
pub struct LogStop {
    pub frame: u64,
    /// Whether a command waited for its answer there.
    pub is_answer_due: bool,
}

/// A log between two frames: how many there were, and the command whose answer is due.
#[derive(Clone, Debug, Default)]
pub struct Turns {
    frames: u64,
    due: Option<Command>,
}

/// A command of a log, by the number of its frame.
#[derive(Clone, Debug)]
struct Command {
    frame: u64,
    reader: u8,
    line: Vec<u8>,
}

impl Turns {
    /// Takes a frame without its LF, of which `MAX_ANSWER_DIGITS` and one more are enough. It gives the command and
    /// its answer once that is read.
    pub fn take(&mut self, text: &[u8]) -> Result<Option<Exchange>, LogStop> {
        self.frames += 1;
        let stop = self.stop(self.frames);
        match (bytes_of_frame(text).as_deref(), self.due.take()) {
            (Some([COMMAND, reader, line @ ..]), None) => {
                let command = Command { frame: self.frames, reader: *reader, line: line.to_vec() };
                self.due = Some(command);
                Ok(None)
            }
            (Some([ANSWER, lines @ ..]), Some(due)) => {
                Ok(Some(due.answered(Recorded::Lines(lines.to_vec()))))
            }
            (Some([REFUSAL, number]), Some(due)) => {
                Ok(Some(due.answered(Recorded::Refused(*number))))
            }
            _ => Err(stop),
        }
    }

    /// Where a log stops that ends in a frame without LF.
    pub fn cut(&self) -> LogStop {
        self.stop(self.frames + 1)
    }

    /// The end of a log, after the last LF.
    pub fn end(&self) -> Result<(), LogStop> {
        match &self.due {
            Some(due) => Err(self.stop(due.frame)),
            None => Ok(()),
        }
    }

    fn stop(&self, frame: u64) -> LogStop {
        LogStop { frame, is_answer_due: self.due.is_some() }
    }
}

impl Command {
    fn answered(self, recorded: Recorded) -> Exchange {
        let Command { frame, reader, line } = self;
        Exchange { frame, reader, line, recorded }
    }
}

/// The bytes of a frame of a log that is not overlong.
fn bytes_of_frame(text: &[u8]) -> Option<Vec<u8>> {
    let most = if text.starts_with(ANSWER_DIGITS) { MAX_ANSWER_DIGITS } else { MAX_DIGITS };
    bytes_of_hex(text).filter(|_| text.len() <= most)
}
