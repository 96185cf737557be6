//! The feeder (document 02, W2): takes the bytes of a connection in chunks of any length and hands
//! over whole commands.
//!
//! It refuses three causes alone: a larger n than a literal may have, a byte 00, and a command over
//! 2,048 bytes. Whatever else is wrong with a command is for the command reader to say.

use std::mem;

use crate::line::CRLF;
use crate::literal::{first_line, MAX_LITERAL};
use crate::refusal::Refusal;
use crate::shape::MAX_LINE;

/// The continuation line that a literal is asked for with.
pub const CONTINUATION: &[u8] = b"+ go\r\n";

/// What a feeder tells, in the order of the bytes that make it so.
#[derive(Clone, Debug, PartialEq, Eq)]
pub enum Event {
    /// A whole command, its literals in it and its CR LF at its end.
    Command(Vec<u8>),
    /// The refusal, which is 3.
    Refused(Refusal),
    /// The continuation line is to be sent.
    GoOn,
}

/// The state between two chunks. The first one has nothing left over from the bytes before it.
#[derive(Clone, Debug, PartialEq, Eq)]
pub enum Feeder {
    /// The command so far, every byte of it.
    Reading(Vec<u8>),
    /// "bytes are dropped through the next CR LF"
    Dropping { after_cr: bool },
}

/// What the last byte, a LF, made of the command so far.
enum Stage {
    Unfinished,
    /// It is the end of a header: a literal of so many bytes is announced.
    Announced(usize),
    Whole,
}

impl Default for Feeder {
    fn default() -> Feeder {
        Feeder::Reading(Vec::new())
    }
}

impl Feeder {
    /// Takes a chunk, which may be empty.
    pub fn feed(&mut self, chunk: &[u8]) -> Vec<Event> {
        chunk.iter().filter_map(|&byte| self.take(byte)).collect()
    }

    fn take(&mut self, byte: u8) -> Option<Event> {
        match self {
            Feeder::Reading(command) => {
                command.push(byte);
                self.after_byte(byte)
            }
            Feeder::Dropping { after_cr } => {
                if *after_cr && byte == b'\n' {
                    *self = Feeder::default();
                } else {
                    *after_cr = byte == b'\r';
                }
                None
            }
        }
    }

    /// "Where two causes meet, the earlier byte decides, and at one byte the length of the command
    /// comes before n": each byte is judged as it comes, and length and 00 first.
    fn after_byte(&mut self, byte: u8) -> Option<Event> {
        let Feeder::Reading(command) = self else {
            return None;
        };
        if command.len() > MAX_LINE || byte == 0 {
            *self = dropping_from(command);
            return Some(Event::Refused(Refusal::LineShape));
        }
        if byte != b'\n' {
            return None;
        }
        match stage_of(command) {
            Stage::Unfinished => None,
            Stage::Announced(length) if length <= MAX_LITERAL => Some(Event::GoOn),
            Stage::Announced(_) => {
                *self = Feeder::default();
                Some(Event::Refused(Refusal::LineShape))
            }
            Stage::Whole => Some(Event::Command(mem::take(command))),
        }
    }
}

/// "dropping counts the offending byte and a CR just before it", wherever that CR stood: a command
/// that ends in CR LF with its offending byte is dropped already.
fn dropping_from(command: &[u8]) -> Feeder {
    if command.ends_with(CRLF) {
        Feeder::default()
    } else {
        Feeder::Dropping { after_cr: command.ends_with(b"\r") }
    }
}

/// Reads the command so far from its start. Its last byte is a LF, and no larger n was announced
/// before that.
fn stage_of(command: &[u8]) -> Stage {
    let mut rest = command;
    while let Some(line) = first_line(rest) {
        let Some(announced) = line.announced else {
            return Stage::Whole;
        };
        if line.behind.is_empty() {
            return Stage::Announced(announced);
        }
        match line.behind.split_at_checked(announced) {
            Some((_, behind_literal)) => rest = behind_literal,
            None => return Stage::Unfinished,
        }
    }
    Stage::Unfinished
}
