//! Frames of the program: lines of hexadecimal (document 01, 'Frames of the program'; document 02, W6 and W9).

use crate::hex::{bytes_of_hex, hex_of};

/// First byte of a frame that adds to the table.
pub const ROW: u8 = 0x4D;
/// First byte of a frame that adds to the namespace list.
pub const ENTRY: u8 = 0x4E;
/// First byte of a frame with a command.
pub const COMMAND: u8 = 0x43;
/// First byte of a frame that asks for a walk, and of its answer.
pub const WALK: u8 = 0x57;
/// First byte of the answer to a command.
pub const ANSWER: u8 = 0x41;
/// First byte of a refusal.
pub const REFUSAL: u8 = 0x52;

/// "the frame limit becomes 4,102 digits" (W9), of every frame, the LF not counted.
pub const MAX_DIGITS: usize = 4_102;

/// A frame that is not bad.
#[derive(Clone, Debug, PartialEq, Eq)]
pub enum Frame {
    Row(Vec<u8>),
    Entry(Vec<u8>),
    Command { reader: u8, line: Vec<u8> },
    Walk { reader: u8, option: u8 },
}

/// A frame as it is sent, bad or not.
#[derive(Clone, Debug)]
pub struct SentFrame {
    /// Without LF.
    pub text: Vec<u8>,
    /// The last frame, with no LF after it.
    pub is_cut: bool,
}

impl Frame {
    /// Reads a frame without its LF, or says why it is bad, which is 13.
    pub fn decode(text: &[u8]) -> Result<Frame, &'static str> {
        if text.len() > MAX_DIGITS {
            return Err("a frame has at most 4,102 digits");
        }
        match *digits_to_bytes(text)? {
            [ROW, ref row @ ..] => Ok(Frame::Row(row.to_vec())),
            [ENTRY, ref entry @ ..] => Ok(Frame::Entry(entry.to_vec())),
            [COMMAND, reader, ref line @ ..] => Ok(Frame::Command { reader, line: line.to_vec() }),
            [COMMAND] => Err("43 is followed by the byte of the reader"),
            [WALK, reader, option] => Ok(Frame::Walk { reader, option }),
            [WALK, ..] => Err("57 is followed by the byte of the reader and one byte more"),
            [] => Err("a frame is not empty"),
            _ => Err("the first byte of a frame is 4D, 4E, 43 or 57"),
        }
    }

    /// The frame in upper case, without its LF.
    pub fn encode(&self) -> Vec<u8> {
        let (head, body): (&[u8], &[u8]) = match self {
            Frame::Row(row) => (&[ROW], row),
            Frame::Entry(entry) => (&[ENTRY], entry),
            Frame::Command { reader, line } => (&[COMMAND, *reader], line),
            Frame::Walk { reader, option } => (&[WALK, *reader, *option], &[]),
        };
        hex_of(&[head, body].concat())
    }

    /// Who sends a command or a walk.
    pub fn reader(&self) -> Option<u8> {
        match self {
            Frame::Command { reader, .. } | Frame::Walk { reader, .. } => Some(*reader),
            Frame::Row(_) | Frame::Entry(_) => None,
        }
    }
}

/// The bytes of a frame, or why it has none.
fn digits_to_bytes(text: &[u8]) -> Result<Box<[u8]>, &'static str> {
    if !text.iter().all(u8::is_ascii_hexdigit) {
        return Err("a frame holds hexadecimal digits alone");
    }
    bytes_of_hex(text).map(Vec::into_boxed_slice).ok_or("a frame has an even number of digits")
}

/// The frame of a command's answer, 41 with the lines or 52 with the number of a refusal, without LF.
pub fn answer_frame(answered: Result<&[u8], u8>) -> Vec<u8> {
    match answered {
        Ok(lines) => hex_of(&[&[ANSWER], lines].concat()),
        Err(number) => hex_of(&[REFUSAL, number]),
    }
}
