//! One connection: its bytes go through the library's feeder, each command is decided and answered, and
//! no byte is read while an answer cannot be written. So memory is bounded, whatever a client sends.

use std::io::{self, BufWriter, ErrorKind, Read, Write};
use std::time::{Duration, Instant};

use luspemaro::{feed, put_go_on, FeederState, Happening, Refusal, COMMAND_ROOM};

use crate::account::Account;
use crate::decided::{Client, Decided};
use crate::log::word_text;
use crate::rooms::command_memory;
use crate::stop::Woken;
use crate::words::{bare_lf_hint, farewell, greeting, not_kept_line, refusal_line};

/// Bytes that are read at a time.
const CHUNK: usize = 4_096;
/// `LUSPEMARO_ROOM_GO_ON`
const GO_ON: usize = 6;
/// So long nothing comes after a line that ended in LF alone before the client is told why.
const HINT_AFTER: Duration = Duration::from_secs(2);

/// How a connection ended.
#[derive(Clone, Copy, Debug, PartialEq, Eq)]
pub enum Ending {
    /// The client sent LOGOUT.
    LoggedOut,
    /// The client closed it.
    Closed,
    /// No whole command came for as long as the client may wait.
    Idle,
    /// The server ends.
    Stopped,
    /// The log cannot be written.
    NotLogged,
}

/// A connection between two chunks.
struct Connection<'a, W: Write> {
    account: &'a Account,
    client: &'a Client,
    output: BufWriter<W>,
    feeder: FeederState,
    /// The command so far, zero after it.
    command: Box<[u8; COMMAND_ROOM]>,
    answer: Vec<u8>,
    /// When the last whole command was answered.
    last_command: Instant,
    /// An answer is in the buffer of the output.
    has_answer: bool,
    /// The last byte that was read is LF, and ends no command.
    ends_in_lf: bool,
    is_hinted: bool,
}

/// Greets a client and answers it until the connection ends. `wait` waits for input, at most so long, and
/// says why it has waited no longer.
pub fn converse(
    account: &Account,
    client: &Client,
    input: &mut impl Read,
    output: &mut impl Write,
    mut wait: impl FnMut(Option<Duration>) -> io::Result<Woken>,
) -> io::Result<Ending> {
    let mut connection = Connection {
        account,
        client,
        output: BufWriter::new(output),
        feeder: FeederState::default(),
        command: command_memory(),
        answer: account.answer_memory(),
        last_command: Instant::now(),
        has_answer: false,
        ends_in_lf: false,
        is_hinted: false,
    };
    let said = connection.say("PREAUTH", &greeting(client.reader))?;
    let ended = match said {
        Some(ending) => Ok(ending),
        None => connection.go_on(input, &mut wait),
    };
    let noted = match &ended {
        Ok(ending) => account.note(Some(&client.peer), format_args!("ended: {}", ending.text())),
        Err(error) => account.note(Some(&client.peer), format_args!("ended: {error}")),
    };
    // A log that takes nothing is reported already, and the connection is over.
    drop(noted);
    ended
}

impl Ending {
    fn text(self) -> &'static str {
        match self {
            Ending::LoggedOut => "LOGOUT",
            Ending::Closed => "closed by the client",
            Ending::Idle => "no whole command in time",
            Ending::Stopped => "the server ends",
            Ending::NotLogged => "the log cannot be written",
        }
    }
}

/// Whether an input or output has waited for as long as it may.
fn is_timeout(error: &io::Error) -> bool {
    matches!(error.kind(), ErrorKind::WouldBlock | ErrorKind::TimedOut)
}

impl<W: Write> Connection<'_, W> {
    /// Takes what comes, until the connection ends.
    fn go_on(
        &mut self,
        input: &mut impl Read,
        wait: &mut impl FnMut(Option<Duration>) -> io::Result<Woken>,
    ) -> io::Result<Ending> {
        let mut chunk = [0; CHUNK];
        loop {
            self.send()?;
            match wait(self.time_left())? {
                Woken::Input => {}
                Woken::Stop => return self.bye("the server ends", Ending::Stopped),
                Woken::Time => match self.time_passed()? {
                    Some(ending) => return Ok(ending),
                    None => continue,
                },
            }
            let ended = match input.read(&mut chunk) {
                Ok(0) => return self.closed(),
                Ok(taken) => self.take(&chunk[..taken])?,
                Err(error) if error.kind() == ErrorKind::Interrupted || is_timeout(&error) => None,
                Err(error) => return Err(error),
            };
            if let Some(ending) = ended {
                self.output.flush()?;
                return Ok(ending);
            }
            // The time counts on between two chunks of a command.
            if !self.has_answer && self.is_idle() {
                return self.too_long();
            }
        }
    }

    /// Sends what was answered. The time in which the client takes it is not counted as idle.
    fn send(&mut self) -> io::Result<()> {
        self.output.flush()?;
        if self.has_answer {
            self.has_answer = false;
            self.last_command = Instant::now();
        }
        Ok(())
    }

    /// How long may be waited: until the client is idle, or until it is told of its LF.
    fn time_left(&self) -> Option<Duration> {
        let idle = self.client.idle.map(|idle| idle.saturating_sub(self.last_command.elapsed()));
        let hint = self.may_hint().then_some(HINT_AFTER);
        idle.into_iter().chain(hint).min()
    }

    /// Nothing came for as long as was waited.
    fn time_passed(&mut self) -> io::Result<Option<Ending>> {
        if self.is_idle() {
            return self.too_long().map(Some);
        }
        self.hint()
    }

    fn is_idle(&self) -> bool {
        self.client.idle.is_some_and(|idle| self.last_command.elapsed() >= idle)
    }

    fn too_long(&mut self) -> io::Result<Ending> {
        let why = if self.feeder == FeederState::default() {
            "nothing came for too long"
        } else {
            "a command was not finished for too long"
        };
        self.bye(why, Ending::Idle)
    }

    /// The client sends no more, but may still read.
    fn closed(&mut self) -> io::Result<Ending> {
        if let Some(ending) = self.hint()? {
            return Ok(ending);
        }
        // Who has closed both ways is told nothing, and that is no failure.
        let _ = self.output.flush();
        Ok(Ending::Closed)
    }

    fn may_hint(&self) -> bool {
        self.ends_in_lf && !self.is_hinted
    }

    /// Tells a client of its LF, if it ended a line so and was not told before.
    fn hint(&mut self) -> io::Result<Option<Ending>> {
        if !self.may_hint() {
            return Ok(None);
        }
        self.is_hinted = true;
        self.say("BAD: a line ended in LF without CR", &bare_lf_hint())
    }

    /// Writes a line of the server's own that answers no command, after it is in the log as `what`. Where the
    /// log cannot be written, the connection ends.
    fn say(&mut self, what: &str, line: &[u8]) -> io::Result<Option<Ending>> {
        if self.account.note(Some(&self.client.peer), format_args!("server {what}")).is_err() {
            self.output.write_all(&farewell("the log cannot be written"))?;
            self.output.flush()?;
            return Ok(Some(Ending::NotLogged));
        }
        self.output.write_all(line)?;
        Ok(None)
    }

    fn bye(&mut self, why: &str, ending: Ending) -> io::Result<Ending> {
        let ended = self.say(&format!("BYE: {why}"), &farewell(why))?;
        self.output.flush()?;
        Ok(ended.unwrap_or(ending))
    }

    /// Takes a chunk, and says whether the connection ends with it.
    fn take(&mut self, mut chunk: &[u8]) -> io::Result<Option<Ending>> {
        while !chunk.is_empty() {
            let before = self.feeder;
            let fed = feed(before, &mut *self.command, chunk);
            let (taken, rest) = chunk.split_at(fed.used);
            self.feeder = fed.state;
            chunk = rest;
            self.ends_in_lf = fed.happening == Happening::Nothing
                && taken.ends_with(b"\n")
                && !is_in_literal(before, taken.len());
            let ended = match fed.happening {
                Happening::Nothing => None,
                Happening::Command(length) => self.answer_command(length)?,
                Happening::GoOn => {
                    let mut line = [0; GO_ON];
                    let length = put_go_on(&mut line, 0);
                    self.output.write_all(&line[..length.min(GO_ON)])?;
                    None
                }
                Happening::Refused(refusal) => self.answer_refused(refusal)?,
                Happening::NotTaken => return Err(io::Error::other("the feeder took no byte")),
            };
            if ended.is_some() {
                return Ok(ended);
            }
        }
        Ok(None)
    }

    /// Answers the command at the front of the memory, and says whether it is the last.
    fn answer_command(&mut self, length: usize) -> io::Result<Option<Ending>> {
        let line = &self.command[..length];
        let mut ended = None;
        match self.account.decide(self.client, line, &mut self.answer) {
            Decided::Answered(length) => self.output.write_all(&self.answer[..length])?,
            Decided::NotKept(why) => self.output.write_all(&not_kept_line(line, why))?,
            Decided::Refused(refusal) => self.output.write_all(&refusal_line(line, refusal))?,
            Decided::Own(own) => {
                self.output.write_all(&own.lines)?;
                ended = own.is_end.then_some(Ending::LoggedOut);
            }
        }
        self.command[..length].fill(0);
        self.has_answer = true;
        Ok(ended)
    }

    /// Answers what the feeder refuses, which is no command.
    fn answer_refused(&mut self, refusal: Refusal) -> io::Result<Option<Ending>> {
        let (word, number) = (word_text(self.command_so_far()), refusal.number());
        let what = format_args!("{word} refused {number} by the feeder");
        if self.account.note(Some(&self.client.peer), what).is_err() {
            return self.bye("the log cannot be written", Ending::NotLogged).map(Some);
        }
        self.output.write_all(&refusal_line(self.command_so_far(), refusal))?;
        self.command.fill(0);
        self.has_answer = true;
        Ok(None)
    }

    /// No command holds 00, and the memory is zero after the command.
    fn command_so_far(&self) -> &[u8] {
        let end = self.command.iter().position(|&byte| byte == 0);
        &self.command[..end.unwrap_or(COMMAND_ROOM)]
    }
}

/// Whether so many bytes all belong to the literal in which a feeder stands.
fn is_in_literal(feeder: FeederState, count: usize) -> bool {
    /// `place` of `struct luspemaro_feeder`; its `value` then is the number of the literal's bytes to come.
    const LITERAL: u8 = 6;
    feeder.place == LITERAL && count <= feeder.value
}
