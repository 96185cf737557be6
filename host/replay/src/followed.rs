//! What is kept of a log that was followed: the verdict, counts, the first differences and commands.

use formats::log::{Exchange, LogStop, Recorded};
use luspemaro::Verdict;
use serve::word_text;

use crate::difference::Difference;
use crate::second_program::{stop_rule, Cause};
use crate::served::Logged;
use crate::table::KeptTable;

/// How many there were of what.
#[derive(Clone, Copy, Debug, Default, PartialEq, Eq)]
pub struct Counts {
    /// Frames that have ended, through the one that stopped the log.
    pub frames: u64,
    /// Commands that were run again, by what was recorded.
    pub answered: u64,
    pub refused: u64,
    /// Those that changed a row.
    pub changed: u64,
    /// Those whose recorded answer differs; without `all` the first alone is looked for.
    pub differing: u64,
}

impl Counts {
    pub fn commands(&self) -> u64 {
        self.answered + self.refused
    }
}

/// How a recorded answer stands to what is answered now.
#[derive(Clone, Copy, Debug, PartialEq, Eq)]
pub enum Now {
    Same,
    Differs,
    /// It comes after the first difference, and that alone was looked for.
    NotLookedAt,
}

/// A command of the night, for a page.
#[derive(Clone, Debug, PartialEq, Eq)]
pub struct SentCommand {
    pub frame: u64,
    pub line: u64,
    pub reader: u8,
    pub word: String,
    /// What was recorded, in a few words.
    pub recorded: String,
    pub now: Now,
    pub logged: Option<Logged>,
}

/// What a log came to.
#[derive(Debug)]
pub struct Followed {
    pub verdict: Verdict,
    pub counts: Counts,
    /// The first, or the first ones of all.
    pub differences: Vec<Difference>,
    /// Where and why the log was stopped, if it was.
    pub stop: Option<Stopped>,
    /// The first commands, as many as are kept.
    pub sent: Vec<SentCommand>,
    /// The table at the end.
    pub table: KeptTable,
    /// Of the server's log: commands that it has and the record has not. Not known of a log that was stopped.
    pub unrecorded: u64,
    /// Commands of which the server's log says otherwise than the record.
    pub contradicted: Contradicted,
}

/// A frame with which a log was stopped.
#[derive(Clone, Debug, PartialEq, Eq)]
pub struct Stopped {
    pub frame: u64,
    /// Its text, without LF; empty where the log ends after a command.
    pub text: Vec<u8>,
    /// The rule that it breaks, in the second program's words.
    pub rule: &'static str,
}

impl Stopped {
    pub fn new(stop: LogStop, text: &[u8], cause: Cause) -> Stopped {
        let rule = stop_rule(stop.is_answer_due, cause);
        Stopped { frame: stop.frame, text: text.to_vec(), rule }
    }
}

/// Where the server's log and the record do not say the same.
#[derive(Clone, Debug, Default, PartialEq, Eq)]
pub struct Contradicted {
    pub count: u64,
    /// The first: its frame, what is recorded and what the log has.
    pub first: Option<(u64, String, String)>,
}

impl Followed {
    /// Before the first frame.
    pub fn at_start(table: KeptTable) -> Followed {
        Followed {
            verdict: Verdict::Agree,
            counts: Counts::default(),
            differences: Vec::new(),
            stop: None,
            sent: Vec::new(),
            table,
            unrecorded: 0,
            contradicted: Contradicted::default(),
        }
    }
}

impl Contradicted {
    /// What the log has of a command is its word and what was recorded, and then perhaps what the server answered by itself.
    pub fn note(&mut self, sent: &SentCommand) {
        let Some(logged) = &sent.logged else {
            return;
        };
        let recorded = format!("{} {}", sent.word, sent.recorded);
        let rest = logged.what.strip_prefix(&recorded);
        if rest.is_some_and(|rest| rest.is_empty() || rest.starts_with(',')) {
            return;
        }
        self.count += 1;
        self.first.get_or_insert((sent.frame, recorded, logged.what.clone()));
    }
}

impl SentCommand {
    pub fn of(exchange: &Exchange, line: u64, now: Now, logged: Option<Logged>) -> SentCommand {
        let recorded = match &exchange.recorded {
            Recorded::Lines(lines) => format!("answered {} bytes", lines.len()),
            Recorded::Refused(number) => format!("refused {number}"),
        };
        let (frame, reader) = (exchange.frame, exchange.reader);
        SentCommand { frame, line, reader, word: word_text(&exchange.line), recorded, now, logged }
    }
}
