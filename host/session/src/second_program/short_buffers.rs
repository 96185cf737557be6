//! What was too long where a buffer of the program is too small (9, 10 and 11), and what can be done
//! about it.

use formats::frames::Frame;
use formats::reply::Reply;
use formats::sizes::{ROOM_ANSWER, ROOM_FOUND, ROOM_PENDING, ROOM_SCRATCH};
use formats::text::line_text;
use second::collector::walk_command;
use second::fault::Fault;
use second::frames::{Program, ANSWER_ROOM, FOUND_ROOM, PENDING_ROOM, SCRATCH_ROOM};
use second::{answer_reading, collect, Refusal, Table};

const FOR_COMMANDS: &str =
    "what can be done: ask for fewer names at a time, by a longer reference \
                            or level by level with %; or lend luspemaro_answer of the library a \
                            larger buffer, as ./serve does";
const FOR_WALKS: &str = "what can be done: walk large in place of walk, which goes through \
                         luspemaro_collect of the library with larger buffers";
const ENOUGH: &str = "the programs differ: by the second one the buffer is long enough";

/// Why a frame was refused with 9, 10 or 11 by a program with the buffers of document 01. None for
/// another number.
pub fn short_buffer_text(program: &Program, frame: &[u8], refusal: Refusal) -> Option<String> {
    let needed = match Frame::decode(frame).ok()? {
        Frame::Command { reader, line } => {
            let (length, remedy) = (answer_length(program, reader, &line)?, FOR_COMMANDS);
            Needed { what: "the answer has".to_string(), length, size: ANSWER_ROOM, remedy }
        }
        Frame::Walk { reader, option } => needed_by_walk(program, (reader, option), refusal)?,
        Frame::Row(_) | Frame::Entry(_) => return None,
    };
    Some(needed.text())
}

/// What does not fit into a buffer of this size.
struct Needed {
    what: String,
    length: usize,
    size: usize,
    remedy: &'static str,
}

impl Needed {
    fn text(self) -> String {
        let Needed { what, length, size, remedy } = self;
        if length <= size {
            return ENOUGH.to_string();
        }
        format!("{what} {length} bytes, and the buffer of the program {size}; {remedy}")
    }
}

fn answer_length(program: &Program, reader: u8, line: &[u8]) -> Option<usize> {
    let store = program.records().ok()?;
    let (table, list) = (Table::Records(store.as_records()), &program.namespaces);
    answer_reading(reader, table, list, line, &mut vec![0; ROOM_ANSWER]).ok()
}

/// A walk of the second program with buffers that are never too small.
pub struct LargeWalk {
    commands: usize,
    /// The names that it found, each with a length byte.
    found: Vec<u8>,
    /// The names below which it asked, each with a length byte, and zeros after them.
    pending: Vec<u8>,
}

pub fn collect_large(program: &Program, reader: u8, option: u8) -> Result<LargeWalk, Refusal> {
    let store = program.records().map_err(Fault::refusal)?;
    let table = Table::Records(store.as_records());
    let [mut scratch, mut found, mut pending] =
        [ROOM_SCRATCH, ROOM_FOUND, ROOM_PENDING].map(|size| vec![0; size]);
    let (commands, length) =
        collect(reader, table, option, &mut scratch, &mut found, &mut pending)?;
    found.truncate(length);
    Ok(LargeWalk { commands, found, pending })
}

impl LargeWalk {
    /// As a program of frames answers it.
    pub fn reply(&self) -> Reply {
        // One more than the ancestors of 512 names, which have 15 each at most.
        let count = u16::try_from(self.commands).unwrap_or(u16::MAX);
        let found = names_of(&self.found).into_iter().map(<[u8]>::to_vec).collect();
        Reply::Walked { count, found }
    }
}

/// What a walk with larger buffers needs of the one that was refused as too small.
fn needed_by_walk(
    program: &Program,
    (reader, option): (u8, u8),
    refusal: Refusal,
) -> Option<Needed> {
    let store = program.records().ok()?;
    let table = Table::Records(store.as_records());
    let walk = collect_large(program, reader, option).ok()?;
    let below = names_of(&walk.pending);
    let mut scratch = vec![0; ROOM_SCRATCH];
    let (what, length, size) = match refusal {
        Refusal::AnswerRoom => {
            let places = [None].into_iter().chain(below.iter().copied().map(Some));
            let commands = places.filter_map(|below| walk_command(option, below));
            let (command, length) = commands
                .filter_map(|command| {
                    let answer = answer_reading(reader, table, &[], &command, &mut scratch);
                    answer.ok().map(|length| (command, length))
                })
                .find(|(_, length)| *length > SCRATCH_ROOM)
                .unwrap_or_default();
            let command = line_text(command.trim_ascii_end());
            (format!("the answer to {command} has"), length, SCRATCH_ROOM)
        }
        Refusal::FoundRoom => {
            let what = "the names to be found, each with a length byte, have";
            (what.to_string(), walk.found.len(), FOUND_ROOM)
        }
        Refusal::PendingRoom => {
            let what = "the names to ask below, each with a length byte, have";
            let length = below.iter().map(|name| 1 + name.len()).sum();
            (what.to_string(), length, PENDING_ROOM)
        }
        _ => return None,
    };
    Some(Needed { what, length, size, remedy: FOR_WALKS })
}

/// The names at the front, each with a length byte. No name is empty, so zeros after them are none.
fn names_of(mut bytes: &[u8]) -> Vec<&[u8]> {
    let mut names = Vec::new();
    while let Some((&length, rest)) = bytes.split_first().filter(|(&length, _)| length != 0) {
        let (name, after) = rest.split_at(usize::from(length).min(rest.len()));
        names.push(name);
        bytes = after;
    }
    names
}
