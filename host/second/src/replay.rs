//! Replay of a night (document 02, W14): a log of commands and of what was answered to them, run again from the
//! table that it started with.
//!
//! "Our logs hold frames of 43 with the command and 41 or 52 with what was answered." A log is read frame by frame;
//! `Turns` says what stands where, and `replay` runs each command over a lent table.

use std::mem;

use crate::frames::{bytes_of_hex, ANSWER, ANSWER_ROOM, COMMAND, MAX_DIGITS, REFUSAL};
use crate::records::RecordsMut;
use crate::server::answer;

/// "In a log a frame of 41 may have up to 32,770 digits."
pub const MAX_ANSWER_DIGITS: usize = 32_770;
/// The digits with which such a frame begins.
const ANSWER_DIGITS: &[u8] = b"41";

/// What a log has as the answer to a command, or what is answered to it now.
#[derive(Clone, Debug, PartialEq, Eq)]
pub enum Recorded {
    Lines(Vec<u8>),
    /// The number, which need not be one of the papers'.
    Refused(u8),
}

/// A frame of a log.
#[derive(Clone, Debug, PartialEq, Eq)]
pub enum LogFrame {
    Command { reader: u8, line: Vec<u8> },
    Answer(Recorded),
}

/// A command of a log with its answer. The frame is the number of the 43.
#[derive(Clone, Debug, PartialEq, Eq)]
pub struct Exchange {
    pub frame: u64,
    pub reader: u8,
    pub line: Vec<u8>,
    pub recorded: Recorded,
}

/// Where a log is refused with 13, and which rule of the papers says so.
#[derive(Clone, Copy, Debug, PartialEq, Eq)]
pub struct Stop {
    pub frame: u64,
    pub rule: &'static str,
}

/// What a replay reports: "the number of the first frame of 43 whose recorded answer differs, or that all agree";
/// or 13 "and the number of that frame or that 43, whatever differed before".
#[derive(Clone, Copy, Debug, PartialEq, Eq)]
pub enum Verdict {
    Agree,
    Differs(u64),
    Stopped(Stop),
}

/// A log between two frames: how many there were, and the command whose answer is due.
#[derive(Clone, Debug, Default)]
pub struct Turns {
    frames: u64,
    due: Option<(u64, u8, Vec<u8>)>,
}

const NO_LF: &str = "the last frame of a log ends with LF too";
const SECOND_COMMAND: &str = "a 43 is followed by its 41 or 52, and not by another 43";
const NO_COMMAND: &str = "a 41 or 52 follows the 43 that it answers";
const NO_ANSWER: &str = "a log does not end after a 43";

/// Replays a log over a table, which is at the end as the commands left it, at a stop too.
pub fn replay(table: &mut RecordsMut, namespaces: &[u8], log: &[u8]) -> Verdict {
    replay_log(table, namespaces, log).unwrap_or_else(Verdict::Stopped)
}

fn replay_log(table: &mut RecordsMut, namespaces: &[u8], log: &[u8]) -> Result<Verdict, Stop> {
    let mut turns = Turns::default();
    let mut first = None;
    for frame in log.split_inclusive(|&byte| byte == b'\n') {
        let text = frame.strip_suffix(b"\n").ok_or_else(|| turns.cut())?;
        if let Some(exchange) = turns.take(text)? {
            let differs = exchange.answered_now(table, namespaces) != exchange.recorded;
            first = first.or(differs.then_some(exchange.frame));
        }
    }
    turns.end()?;
    Ok(first.map_or(Verdict::Agree, Verdict::Differs))
}

impl Exchange {
    /// Runs the command, "with an answer buffer of 16,384 bytes".
    pub fn answered_now(&self, table: &mut RecordsMut, namespaces: &[u8]) -> Recorded {
        let mut out = vec![0; ANSWER_ROOM];
        match answer(self.reader, table, namespaces, &self.line, &mut out) {
            Ok(answered) => {
                out.truncate(answered.length);
                Recorded::Lines(out)
            }
            Err(refusal) => Recorded::Refused(refusal.number()),
        }
    }
}

impl Turns {
    /// The frames so far, from 1 on.
    pub fn frames(&self) -> u64 {
        self.frames
    }

    /// Takes a frame without its LF, of which `MAX_ANSWER_DIGITS` and one more are enough. It gives the command and
    /// its answer once that is read.
    pub fn take(&mut self, text: &[u8]) -> Result<Option<Exchange>, Stop> {
        self.frames += 1;
        let frame = self.frames;
        let stop = |rule| Stop { frame, rule };
        match (LogFrame::decode(text).map_err(stop)?, mem::take(&mut self.due)) {
            (LogFrame::Command { reader, line }, None) => {
                self.due = Some((frame, reader, line));
                Ok(None)
            }
            (LogFrame::Command { .. }, Some(_)) => Err(stop(SECOND_COMMAND)),
            (LogFrame::Answer(_), None) => Err(stop(NO_COMMAND)),
            (LogFrame::Answer(recorded), Some((frame, reader, line))) => {
                Ok(Some(Exchange { frame, reader, line, recorded }))
            }
        }
    }

    /// Where a log stops that ends in a frame without LF.
    pub fn cut(&self) -> Stop {
        Stop { frame: self.frames + 1, rule: NO_LF }
    }

    /// The end of a log, after the last LF.
    pub fn end(&self) -> Result<(), Stop> {
        match self.due {
            Some((frame, ..)) => Err(Stop { frame, rule: NO_ANSWER }),
            None => Ok(()),
        }
    }
}

impl LogFrame {
    /// Reads a frame without its LF, or says why it is unreadable.
    pub fn decode(text: &[u8]) -> Result<LogFrame, &'static str> {
        if text.starts_with(ANSWER_DIGITS) {
            if text.len() > MAX_ANSWER_DIGITS {
                return Err("a frame of 41 has at most 32,770 digits in a log");
            }
        } else if text.len() > MAX_DIGITS {
            return Err("a frame other than 41 has at most 4,102 digits");
        }
        if !text.iter().all(u8::is_ascii_hexdigit) {
            return Err("a frame holds hexadecimal digits alone");
        }
        let bytes = bytes_of_hex(text).ok_or("a frame has an even number of digits")?;
        match bytes.as_slice() {
            [COMMAND, reader, line @ ..] => {
                Ok(LogFrame::Command { reader: *reader, line: line.to_vec() })
            }
            [COMMAND] => Err("43 is followed by the byte of the reader"),
            [ANSWER, lines @ ..] => Ok(LogFrame::Answer(Recorded::Lines(lines.to_vec()))),
            [REFUSAL, number] => Ok(LogFrame::Answer(Recorded::Refused(*number))),
            [REFUSAL, ..] => Err("52 is followed by one byte"),
            [] => Err("a frame is not empty"),
            _ => Err("the first byte of a frame of a log is 43, 41 or 52"),
        }
    }
}
