//! A walk with larger buffers, through the proved library, for the item `walk large` of a session.
//!
//! The input is frames: the rows that the program of frames was sent, the edits that it accepted, and
//! one walk. The edits are made by the library's command entry, in records that are laid out as the
//! program lays its own out, and the walk is the library's collector, lent buffers of the sizes with which
//! 9, 10 and 11 are never given. A table without edits is walked in its packed form, as it was sent.
//!
//! This crate reads frames and lends memory; it is not proved. The answer is that of the library.

use std::error::Error;
use std::fmt;

use formats::frames::Frame;
use formats::sizes::{PROGRAM_ANSWER, ROOM_FOUND, ROOM_PENDING, ROOM_SCRATCH};
use luspemaro::{collect_from, collect_packed_from, Reader, Refusal, WalkRefusal, Walked};
use serve::{Rooms, Table, TableError};

/// What a walk gives.
#[derive(Debug, PartialEq, Eq)]
pub struct WalkFound {
    /// The commands that it sent.
    pub commands: usize,
    /// The names that it found, each with a length byte.
    pub names: Vec<u8>,
}

/// Why there is no walk at all. A refusal of the walk is none of these.
#[derive(Debug, PartialEq, Eq)]
pub enum InputError {
    /// The frame of this number, from 1 on, is bad or out of its place.
    Frame(usize, &'static str),
    NoWalk,
    /// Edits that the program accepted, of a table that the library does not take.
    Table(TableError),
    /// The edit of this number, from 1 on, is refused by the library.
    Edit(usize, Refusal),
}

/// The rows, the edits and the walk of an input.
#[derive(Debug, Default)]
struct Input {
    rows: Vec<u8>,
    edits: Vec<Vec<u8>>,
    walk: Option<(u8, u8)>,
}

/// Walks as the frames say, one a line. The walk itself may be refused.
pub fn walk(input: &[u8]) -> Result<Result<WalkFound, WalkRefusal>, InputError> {
    let Input { rows, edits, walk } = Input::read(input)?;
    let (reader, option) = walk.ok_or(InputError::NoWalk)?;
    let [mut scratch, mut found, mut pending] =
        [ROOM_SCRATCH, ROOM_FOUND, ROOM_PENDING].map(|room| vec![0; room]);
    let lent = (&mut scratch[..], &mut found[..], &mut pending[..]);
    let walked = if edits.is_empty() {
        collect_packed_from(reader, &rows, option, lent.0, lent.1, lent.2)
    } else {
        let table = edited(&rows, &edits)?;
        collect_from(reader, table.records(), option, lent.0, lent.1, lent.2)
    };
    Ok(walked.map(|Walked { commands, found: length }| {
        found.truncate(length);
        WalkFound { commands, names: found }
    }))
}

/// The table after the edits, which come from reader 0, as the program keeps it.
fn edited(rows: &[u8], edits: &[Vec<u8>]) -> Result<Table, InputError> {
    let mut table = Table::new(rows, &[], Rooms::PROGRAM).map_err(InputError::Table)?;
    let mut out = vec![0; PROGRAM_ANSWER];
    for (number, line) in (1..).zip(edits) {
        let answered = table.answer(Reader::EDITOR, line, &mut out);
        answered.map_err(|refusal| InputError::Edit(number, refusal))?;
    }
    Ok(table)
}

impl Input {
    fn read(bytes: &[u8]) -> Result<Input, InputError> {
        let mut input = Input::default();
        for (number, line) in (1..).zip(bytes.split_inclusive(|&byte| byte == b'\n')) {
            let bad = |reason| InputError::Frame(number, reason);
            let line = line.strip_suffix(b"\n").ok_or(bad("it ends without LF"))?;
            if input.walk.is_some() {
                return Err(bad("something comes after the walk"));
            }
            match Frame::decode(line).map_err(bad)? {
                Frame::Row(row) if input.edits.is_empty() => input.rows.extend(row),
                Frame::Row(_) => return Err(bad("a row comes after an edit")),
                Frame::Command { reader: 0, line } => input.edits.push(line),
                Frame::Command { .. } => return Err(bad("an edit comes from reader 0")),
                Frame::Entry(_) => return Err(bad("a walk has no namespace list")),
                Frame::Walk { reader, option } => input.walk = Some((reader, option)),
            }
        }
        Ok(input)
    }
}

impl fmt::Display for InputError {
    fn fmt(&self, formatter: &mut fmt::Formatter) -> fmt::Result {
        match self {
            InputError::Frame(number, reason) => write!(formatter, "frame {number}: {reason}"),
            InputError::NoWalk => write!(formatter, "there is no walk"),
            InputError::Table(error) => {
                write!(formatter, "edits were accepted, and the table is {error}")
            }
            InputError::Edit(number, refusal) => {
                write!(formatter, "edit {number} was accepted, and the library gives {refusal}")
            }
        }
    }
}

impl Error for InputError {}
