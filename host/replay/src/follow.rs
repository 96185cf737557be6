//! The log fed to the library, exchange by exchange. The verdict is the library's; this tool reads only where an exchange
//! ends and what it is, and the two are compared at the end.

use std::io;

use formats::log::{Exchange, Recorded, Turns, MAX_ANSWER_DIGITS};
use luspemaro::{Replay, Verdict};

use crate::difference::Difference;
use crate::followed::{Followed, Now, SentCommand, Stopped};
use crate::second_program::Cause;
use crate::served::{Cursor, Logged};
use crate::start::Start;
use crate::table::KeptTable;

/// Two frames that can be read have fewer bytes together, their LF with them.
const MOST_HELD: usize = 40_000;
/// No more differences than these are kept one by one, and no more than these bytes of them. All are counted.
const MOST_LISTED: usize = 1_000;
const MOST_BYTES: usize = 8 << 20;

/// A log under way.
pub struct Following<'n> {
    replay: Replay,
    start: &'n Start,
    table: KeptTable,
    /// The same between two exchanges, and during one as it was before it.
    before: KeptTable,
    turns: Turns,
    /// The frame so far, or the start of an overlong one.
    line: Vec<u8>,
    /// What was taken and is not fed yet.
    held: Vec<u8>,
    verdict: Verdict,
    is_stopped: bool,
    finds_all: bool,
    kept_bytes: usize,
    served: Option<Cursor>,
    followed: Followed,
}

/// The library did not take a piece, this tool cuts the log otherwise than the library, or the server's log fails.
#[derive(Debug, PartialEq, Eq)]
pub struct Lost(pub String);

/// The server's log cannot be read any more.
impl From<io::Error> for Lost {
    fn from(error: io::Error) -> Lost {
        Lost(format!("the server's log cannot be read: {error}"))
    }
}

impl<'n> Following<'n> {
    /// At the beginning of a log. With `finds_all` every difference is looked for.
    pub fn new(
        start: &'n Start,
        table: KeptTable,
        finds_all: bool,
        served: Option<Cursor>,
    ) -> Following<'n> {
        let followed = Followed::at_start(table.clone());
        Following {
            replay: Replay::new(),
            start,
            before: table.clone(),
            table,
            turns: Turns::default(),
            line: Vec::new(),
            held: Vec::new(),
            verdict: Verdict::Agree,
            is_stopped: false,
            finds_all,
            kept_bytes: 0,
            served,
            followed,
        }
    }

    /// Whether the log was stopped, so that what comes after it is ignored.
    pub fn is_stopped(&self) -> bool {
        self.is_stopped
    }

    /// How many commands were run so far.
    pub fn commands(&self) -> u64 {
        self.followed.counts.commands()
    }

    /// Takes the next bytes of the log, however they are cut. What comes after a stop is ignored.
    pub fn take(&mut self, piece: &[u8]) -> Result<(), Lost> {
        for part in piece.split_inclusive(|&byte| byte == b'\n') {
            if self.is_stopped {
                return Ok(());
            }
            let text = part.strip_suffix(b"\n").unwrap_or(part);
            let room = MAX_ANSWER_DIGITS + 1 - self.line.len();
            self.line.extend_from_slice(&text[..text.len().min(room)]);
            self.held.extend_from_slice(part);
            if text.len() < part.len() {
                self.frame_ended()?;
                self.line.clear();
            } else if self.held.len() > MOST_HELD {
                self.feed()?;
            }
        }
        Ok(())
    }

    /// The end of the log.
    pub fn end(mut self) -> Result<Followed, Lost> {
        self.feed()?;
        self.followed.counts.frames = self.replay.frames() as u64;
        if !self.is_stopped {
            let is_cut = !self.line.is_empty();
            let (stop, cause) = match is_cut {
                true => (Some(self.turns.cut()), Cause::NoLf),
                false => (self.turns.end().err(), Cause::NoAnswer),
            };
            self.followed.counts.frames += u64::from(is_cut);
            self.followed.stop = stop.map(|stop| Stopped::new(stop, &self.line, cause));
        }
        let stopped = self.followed.stop.as_ref().map(|stop| stop.frame);
        let (told, first) = (self.verdict, self.followed.differences.first().map(|one| one.frame));
        let expected = match (stopped, first) {
            (Some(frame), _) => Verdict::Refused(frame as usize),
            (None, Some(frame)) => Verdict::Differs(frame as usize),
            (None, None) => Verdict::Agree,
        };
        if told != expected {
            return Err(Lost(format!(
                "the library reports {told:?}, and this tool saw {expected:?}"
            )));
        }
        self.followed.verdict = told;
        self.followed.table = self.table;
        let is_whole = !matches!(told, Verdict::Refused(_));
        self.followed.unrecorded = self.served.filter(|_| is_whole).map_or(Ok(0), Cursor::left)?;
        Ok(self.followed)
    }

    /// Feeds what is held.
    fn feed(&mut self) -> Result<(), Lost> {
        let report = self.table.feed(&mut self.replay, &self.start.entries, &self.held);
        let report = report.ok_or_else(|| Lost("the library does not take the log".to_string()))?;
        self.held.clear();
        self.verdict = report.verdict;
        Ok(())
    }

    fn frame_ended(&mut self) -> Result<(), Lost> {
        match self.turns.take(&self.line) {
            Ok(None) => Ok(()),
            Ok(Some(exchange)) => self.exchange_ended(exchange),
            Err(stop) => {
                self.feed()?;
                self.is_stopped = true;
                self.followed.stop = Some(Stopped::new(stop, &self.line, Cause::Frame(&self.line)));
                Ok(())
            }
        }
    }

    /// A command was read with its answer, so the library runs it.
    fn exchange_ended(&mut self, exchange: Exchange) -> Result<(), Lost> {
        let now = self.run(&exchange)?;
        let has_changed = self.before != self.table;
        let counts = &mut self.followed.counts;
        match exchange.recorded {
            Recorded::Lines(_) => counts.answered += 1,
            Recorded::Refused(_) => counts.refused += 1,
        }
        counts.changed += u64::from(has_changed);
        counts.differing += u64::from(now == Now::Differs);
        let line = exchange.frame + self.start.lines();
        let logged = self.served.as_mut().map_or(Ok(None), |served| served.next_of(line))?;
        if now == Now::Differs {
            self.keep_difference(&exchange, line, logged.clone())?;
        }
        let has_room = self.followed.sent.len() < MOST_LISTED;
        if has_room || logged.is_some() {
            let sent = SentCommand::of(&exchange, line, now, logged);
            self.followed.contradicted.note(&sent);
            self.followed.sent.extend(Some(sent).filter(|_| has_room));
        }
        if has_changed {
            self.before.clone_from(&self.table);
        }
        Ok(())
    }

    /// Feeds the exchange that is held. The library reports the first difference; a later one is seen by a replay of the
    /// exchange alone, over the table as it is before it.
    fn run(&mut self, exchange: &Exchange) -> Result<Now, Lost> {
        if self.followed.differences.is_empty() {
            self.feed()?;
            let differs = self.verdict == Verdict::Differs(exchange.frame as usize);
            return Ok(if differs { Now::Differs } else { Now::Same });
        }
        let now = match self.finds_all {
            true => {
                let alone = self.before.clone().replay(&self.start.entries, &self.held);
                if alone.verdict == Verdict::Agree {
                    Now::Same
                } else {
                    Now::Differs
                }
            }
            false => Now::NotLookedAt,
        };
        self.feed().map(|()| now)
    }

    fn keep_difference(
        &mut self,
        exchange: &Exchange,
        line: u64,
        logged: Option<Logged>,
    ) -> Result<(), Lost> {
        let kept = &mut self.followed.differences;
        if kept.len() == MOST_LISTED || self.kept_bytes > MOST_BYTES {
            return Ok(());
        }
        let Start { rows, entries, .. } = self.start;
        let difference = Difference::of(exchange, &self.before, rows, entries);
        let difference = difference.ok_or_else(|| {
            let frame = exchange.frame;
            Lost(format!("frame {frame} differs in the replay, and the command entry answers what was recorded"))
        })?;
        self.kept_bytes += difference.size();
        kept.push(Difference { line, logged, ..difference });
        Ok(())
    }
}
