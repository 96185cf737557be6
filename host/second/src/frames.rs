//! The program: frames of hexadecimal in, answers of hexadecimal out (document 01, 'Frames of
//! the program'; document 02, W6 and W9).

use std::borrow::Cow;
use std::io::{self, BufRead, BufReader, BufWriter, Read, Write};
use std::process::ExitCode;

use crate::collector::{collect, walk_fault};
use crate::fault::{Fault, RoomFault};
use crate::readers::Reader;
use crate::refusal::Refusal;
use crate::server::{answer, command_fault};
use crate::store::Store;
use crate::table::{checked_rows, Table};

/// First byte of a frame that adds to the table.
pub const ROW: u8 = 0x4D;
/// First byte of a frame that adds to the namespace list.
pub const ENTRY: u8 = 0x4E;
/// First byte of a frame with a command.
pub const COMMAND: u8 = 0x43;
/// First byte of a frame that asks for a walk, and of its answer.
pub const WALK: u8 = 0x57;
/// First byte of the answer to a command.
pub const ANSWER: u8 = 0x41;
/// First byte of a refusal.
pub const REFUSAL: u8 = 0x52;

/// "the frame limit becomes 4,102 digits" (W9), of every frame, the LF not counted.
pub const MAX_DIGITS: usize = 4_102;
/// "the stored bytes (16,384 and 1,024 …)".
pub const TABLE_ROOM: usize = 16_384;
pub const NAMESPACES_ROOM: usize = 1_024;
/// "Buffers: answer and scratch 16,384, found and pending 8,192 each."
pub const ANSWER_ROOM: usize = 16_384;
pub const SCRATCH_ROOM: usize = 16_384;
pub const FOUND_ROOM: usize = 8_192;
pub const PENDING_ROOM: usize = 8_192;

/// A frame that is not bad.
#[derive(Debug)]
pub enum Frame {
    Row(Vec<u8>),
    Entry(Vec<u8>),
    Command { reader: u8, line: Vec<u8> },
    Walk { reader: u8, option: u8 },
}

/// What a frame is answered with, if with anything.
#[derive(Debug, PartialEq, Eq)]
pub enum Answer {
    Lines(Vec<u8>),
    Walked { count: u16, found: Vec<u8> },
    Refused(Refusal),
}

/// Document 02, W6: "4D then is 13."
const ROW_AFTER_EDIT: &str = "no row is added after the first SUBSCRIBE or UNSUBSCRIBE that was OK";

/// The program between two frames: the stored bytes of its rows and of its entries.
#[derive(Default)]
pub struct Program {
    pub table: Vec<u8>,
    pub namespaces: Vec<u8>,
    /// What it keeps in place of the table "from the first accepted edit".
    pub store: Option<Store>,
}

/// The program: frames on standard input, answers on standard output. Input or output that fails is
/// told on standard error and ends it with status 1.
pub fn main() -> ExitCode {
    match run(io::stdin().lock(), io::stdout().lock()) {
        Ok(()) => ExitCode::SUCCESS,
        Err(error) => {
            // Standard error may be closed too.
            let _ = writeln!(io::stderr(), "input or output failed: {error}");
            ExitCode::FAILURE
        }
    }
}

/// Answers every frame of the input until it ends.
///
/// Memory is bounded: of a frame no more is kept than shows that it is overlong.
pub fn run(input: impl Read, output: impl Write) -> io::Result<()> {
    let mut input = BufReader::new(input);
    let mut output = BufWriter::new(output);
    let mut program = Program::default();
    let mut text = Vec::new();
    loop {
        text.clear();
        let answer = match read_frame(&mut input, &mut output, &mut text)? {
            FrameEnd::Lf => program.answer(&text),
            FrameEnd::Cut => Some(Answer::Refused(Refusal::Frame)),
            FrameEnd::NoFrame => return output.flush(),
        };
        if let Some(answer) = answer {
            output.write_all(&answer.to_line())?;
        }
    }
}

impl Program {
    /// Takes one frame, without its LF. A row or an entry that is added answers nothing.
    pub fn answer(&mut self, text: &[u8]) -> Option<Answer> {
        self.step(text).unwrap_or_else(|refusal| Some(Answer::Refused(refusal)))
    }

    /// Adds the bytes of a frame of 4D, unlooked-at, or refuses and adds nothing.
    pub fn store_row(&mut self, row: &[u8]) -> Result<(), Fault> {
        self.check_row(row)?;
        self.table.extend_from_slice(row);
        Ok(())
    }

    /// Adds the bytes of a frame of 4E, unlooked-at, or refuses and adds nothing.
    pub fn store_entry(&mut self, entry: &[u8]) -> Result<(), Fault> {
        self.check_entry(entry)?;
        self.namespaces.extend_from_slice(entry);
        Ok(())
    }

    /// Why a frame is refused as things stand, or none if it is not, or if a buffer is too small.
    pub fn fault(&self, text: &[u8]) -> Option<Fault> {
        match Frame::decode(text) {
            Err(rule) => Some(Fault::Frame(rule)),
            Ok(Frame::Row(row)) => self.check_row(&row).err(),
            Ok(Frame::Entry(entry)) => self.check_entry(&entry).err(),
            Ok(Frame::Command { reader, line }) => {
                self.records_for(reader).map_or_else(Some, |store| {
                    let table = Table::Records(store.as_records());
                    command_fault(reader, table, &self.namespaces, &line)
                })
            }
            Ok(Frame::Walk { reader, option }) => {
                self.records_for(reader).map_or_else(Some, |store| {
                    walk_fault(reader, Table::Records(store.as_records()), option)
                })
            }
        }
    }

    fn step(&mut self, text: &[u8]) -> Result<Option<Answer>, Refusal> {
        match Frame::decode(text).map_err(|_| Refusal::Frame)? {
            Frame::Row(row) => self.store_row(&row).map(|()| None).map_err(Fault::refusal),
            Frame::Entry(entry) => self.store_entry(&entry).map(|()| None).map_err(Fault::refusal),
            Frame::Command { reader, line } => self.answer_command(reader, &line).map(Some),
            Frame::Walk { reader, option } => self.answer_walk(reader, option).map(Some),
        }
    }

    /// "no room: 1 or 2, nothing added"
    fn check_row(&self, row: &[u8]) -> Result<(), Fault> {
        match self.store {
            Some(_) => Err(Fault::Frame(ROW_AFTER_EDIT)),
            None => room(&self.table, row, TABLE_ROOM).map_err(Fault::TableRoom),
        }
    }

    fn check_entry(&self, entry: &[u8]) -> Result<(), Fault> {
        room(&self.namespaces, entry, NAMESPACES_ROOM).map_err(Fault::NamespacesRoom)
    }

    /// The records that it keeps, or those that it would make from the stored rows: "every edit is
    /// judged on them". Rows that do not pass have none.
    pub fn records(&self) -> Result<Cow<'_, Store>, Fault> {
        match &self.store {
            Some(store) => Ok(Cow::Borrowed(store)),
            None => {
                let rows = checked_rows(Table::Packed(&self.table)).map_err(Fault::Table)?;
                Ok(Cow::Owned(Store::of_rows(&rows)))
            }
        }
    }

    /// The same for a command or a walk of a reader, whose number is looked at before the rows.
    fn records_for(&self, reader: u8) -> Result<Cow<'_, Store>, Fault> {
        Reader::checked(reader)?;
        self.records()
    }

    /// An edit that is accepted, also one that changes no row, makes the program keep the records.
    fn answer_command(&mut self, reader: u8, line: &[u8]) -> Result<Answer, Refusal> {
        let mut out = vec![0; ANSWER_ROOM];
        let mut store = self.records_for(reader).map_err(Fault::refusal)?.into_owned();
        let answered = store.lend(|lent| answer(reader, lent, &self.namespaces, line, &mut out))?;
        if answered.is_edit {
            self.store = Some(store);
        }
        out.truncate(answered.length);
        Ok(Answer::Lines(out))
    }

    fn answer_walk(&self, reader: u8, option: u8) -> Result<Answer, Refusal> {
        let mut scratch = vec![0; SCRATCH_ROOM];
        let mut found = vec![0; FOUND_ROOM];
        let mut pending = vec![0; PENDING_ROOM];
        let store = self.records_for(reader).map_err(Fault::refusal)?;
        let table = Table::Records(store.as_records());
        let (count, length) =
            collect(reader, table, option, &mut scratch, &mut found, &mut pending)?;
        found.truncate(length);
        // At most 4,097: each command but the first took two bytes or more of pending.
        Ok(Answer::Walked { count: count as u16, found })
    }
}

impl Frame {
    /// Reads a frame without its LF, or says why it is bad, which is 13.
    pub fn decode(text: &[u8]) -> Result<Frame, &'static str> {
        if text.len() > MAX_DIGITS {
            return Err("a frame has at most 4,102 digits");
        }
        if !text.iter().all(u8::is_ascii_hexdigit) {
            return Err("a frame holds hexadecimal digits alone");
        }
        let bytes = bytes_of_hex(text).ok_or("a frame has an even number of digits")?;
        match bytes.as_slice() {
            [ROW, row @ ..] => Ok(Frame::Row(row.to_vec())),
            [ENTRY, entry @ ..] => Ok(Frame::Entry(entry.to_vec())),
            [COMMAND, reader, line @ ..] => {
                Ok(Frame::Command { reader: *reader, line: line.to_vec() })
            }
            [COMMAND] => Err("43 is followed by the byte of the reader"),
            [WALK, reader, option] => Ok(Frame::Walk { reader: *reader, option: *option }),
            [WALK, ..] => Err("57 is followed by the byte of the reader and one byte more"),
            [] => Err("a frame is not empty"),
            _ => Err("the first byte of a frame is 4D, 4E, 43 or 57"),
        }
    }

    /// The frame in upper case, without its LF.
    pub fn encode(&self) -> Vec<u8> {
        hex_of(&match self {
            Frame::Row(row) => [&[ROW], row.as_slice()].concat(),
            Frame::Entry(entry) => [&[ENTRY], entry.as_slice()].concat(),
            Frame::Command { reader, line } => [&[COMMAND, *reader], line.as_slice()].concat(),
            Frame::Walk { reader, option } => vec![WALK, *reader, *option],
        })
    }
}

impl Answer {
    /// "Answers in upper case, LF behind each".
    pub fn to_line(&self) -> Vec<u8> {
        let bytes = match self {
            Answer::Lines(lines) => [&[ANSWER], lines.as_slice()].concat(),
            Answer::Walked { count, found } => [&[WALK], &count.to_be_bytes()[..], found].concat(),
            Answer::Refused(refusal) => vec![REFUSAL, refusal.number()],
        };
        let mut line = hex_of(&bytes);
        line.push(b'\n');
        line
    }
}

fn room(stored: &[u8], added: &[u8], room: usize) -> Result<(), RoomFault> {
    let (stored, added) = (stored.len(), added.len());
    if stored + added > room {
        return Err(RoomFault { stored, added, room });
    }
    Ok(())
}

/// How a frame ended.
enum FrameEnd {
    Lf,
    /// Bytes without LF at the end of the input.
    Cut,
    NoFrame,
}

/// Reads one frame without its LF into `text`, and of an overlong one its start alone. Answers
/// are flushed whenever the input has to be waited for.
fn read_frame(
    input: &mut BufReader<impl Read>,
    output: &mut impl Write,
    text: &mut Vec<u8>,
) -> io::Result<FrameEnd> {
    loop {
        if input.buffer().is_empty() {
            output.flush()?;
        }
        let block = input.fill_buf()?;
        if block.is_empty() {
            return Ok(if text.is_empty() { FrameEnd::NoFrame } else { FrameEnd::Cut });
        }
        let lf = block.iter().position(|&byte| byte == b'\n');
        let part = &block[..lf.unwrap_or(block.len())];
        let kept = part.len().min(MAX_DIGITS + 1 - text.len());
        text.extend_from_slice(&part[..kept]);
        let read = part.len() + usize::from(lf.is_some());
        input.consume(read);
        if lf.is_some() {
            return Ok(FrameEnd::Lf);
        }
    }
}

/// The bytes of hexadecimal digits of either case, or none for an odd number of digits or
/// another character.
pub fn bytes_of_hex(digits: &[u8]) -> Option<Vec<u8>> {
    if !digits.len().is_multiple_of(2) {
        return None;
    }
    let value = |digit: u8| char::from(digit).to_digit(16);
    let byte = |pair: &[u8]| Some((value(pair[0])? * 16 + value(pair[1])?) as u8);
    digits.chunks_exact(2).map(byte).collect()
}

/// Hexadecimal in upper case.
pub fn hex_of(bytes: &[u8]) -> Vec<u8> {
    const DIGITS: &[u8; 16] = b"0123456789ABCDEF";
    let pair = |&byte: &u8| [DIGITS[usize::from(byte / 16)], DIGITS[usize::from(byte % 16)]];
    bytes.iter().flat_map(pair).collect()
}
