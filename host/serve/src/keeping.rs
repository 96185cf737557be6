//! What is kept of commands: the review file, the record and the log. A command is written where it has to be, or
//! nowhere.

use std::fmt::{self, Display};
use std::io::{self, Write};

use luspemaro::Refusal;

use crate::decided::{Client, Decided};
use crate::frame_log::FrameLog;
use crate::log::{word_text, Log, Peer};
use crate::review::Review;

/// Each if it is wanted.
#[derive(Default)]
pub struct Keeping {
    pub review: Option<Review>,
    pub record: Option<FrameLog>,
    pub log: Option<Log>,
}

pub const NOT_RECORDED: &str = "the record cannot be written, so the command is not answered";
pub const NOT_LOGGED: &str = "the log cannot be written, so the command is not answered";
pub const NOT_REVIEWED: &str = "the review file cannot be written, so the edit is not made";

impl Keeping {
    /// Writes a command that is decided, or logs why it cannot be written. Returns what the client is answered.
    pub fn keep(
        &mut self,
        client: &Client,
        line: &[u8],
        answer: Result<&[u8], Refusal>,
        decided: Decided,
        changed: bool,
    ) -> Decided {
        let Err(why) = self.write(client, line, answer, &decided, changed) else {
            return decided;
        };
        let decided = Decided::NotKept(why);
        if why != NOT_LOGGED {
            let what = format_args!("{} {decided}", word_text(line));
            // Where the log takes nothing either, that is reported, and the client is told no more than why.
            let _ = self.note(Some(&client.peer), None, what);
        }
        decided
    }

    /// Writes a command to the record, to the log and, where it changed a row, to the review file; or to none of
    /// them.
    fn write(
        &mut self,
        client: &Client,
        line: &[u8],
        answer: Result<&[u8], Refusal>,
        decided: &Decided,
        changed: bool,
    ) -> Result<(), &'static str> {
        let mut frame = None;
        if let Some(record) = &mut self.record {
            let added = record.add(client.reader, line, answer);
            frame = Some(added.map_err(|error| not_written("the record", &error, NOT_RECORDED))?);
        }
        let what = format_args!("{} {decided}", word_text(line));
        if self.note(Some(&client.peer), frame, what).is_err() {
            self.record.iter_mut().for_each(FrameLog::take_back);
            return Err(NOT_LOGGED);
        }
        if changed {
            self.review(line).inspect_err(|_| {
                self.record.iter_mut().for_each(FrameLog::take_back);
                self.log.iter_mut().for_each(Log::take_back);
            })?;
        }
        Ok(())
    }

    /// Writes an edit to the review file, if there is one.
    fn review(&mut self, line: &[u8]) -> Result<(), &'static str> {
        let Some(review) = &mut self.review else {
            return Ok(());
        };
        let kept = review.keep(line);
        kept.map_err(|error| not_written("the review file", &error, NOT_REVIEWED))
    }

    /// Adds a line to the log, if there is one.
    pub fn note(
        &mut self,
        peer: Option<&Peer>,
        frame: Option<u64>,
        what: fmt::Arguments,
    ) -> io::Result<()> {
        let Some(log) = &mut self.log else {
            return Ok(());
        };
        log.add(peer, frame, what).inspect_err(|error| tell(format_args!("the log: {error}")))
    }

    /// Returns when record and log are on the disk.
    pub fn sync(&mut self) -> io::Result<()> {
        self.record.as_mut().map_or(Ok(()), FrameLog::sync)?;
        self.log.as_mut().map_or(Ok(()), Log::sync)
    }
}

fn not_written(what: &str, error: &io::Error, why: &'static str) -> &'static str {
    tell(format_args!("{what}: {error}"));
    why
}

/// One line on standard error. Where that cannot be written to, nothing is told.
pub fn tell(message: impl Display) {
    let _ = writeln!(io::stderr(), "serve: {message}");
}
