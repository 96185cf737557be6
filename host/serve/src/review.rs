//! The review file: the edits that were accepted, so that a later start goes on from them.
//!
//! It is a file of frames: a 4D for each row and a 4E for each entry of the table that it belongs to,
//! then a 43 from reader 0 for each edit that changed a row, one line each. A line is on the disk before its edit is
//! answered, so bytes after the last LF belong to no edit that was.

use std::error::Error;
use std::fmt;
use std::fs::{File, OpenOptions};
use std::io::{self, BufRead, BufReader, Read};
use std::path::Path;

use formats::frames::{Frame, MAX_DIGITS};
use luspemaro::{Answered, Reader, Refusal};

use crate::frame_file::{lock, FrameFile};
use crate::table::Table;
use crate::words::is_edit;

/// An open review file.
pub struct Review {
    file: FrameFile,
}

/// What a review file held when it was opened.
#[derive(Clone, Copy, Debug, Default, PartialEq, Eq)]
pub struct MadeAgain {
    /// How many edits were made again, each of which changed a row.
    pub edits: u64,
    /// Bytes after the last LF, which are cut off.
    pub cut: u64,
}

/// Why a review file cannot be gone on with. The file is as it was.
#[derive(Debug)]
pub enum ReviewError {
    /// It cannot be opened, read or written.
    Failed(io::Error),
    /// Its rows and entries are not those of the table, from this line on.
    OtherTable(u64),
    /// This line is no edit.
    BadLine(u64),
    /// The edit of this line is refused.
    Refused(u64, Refusal),
}

/// How far a review file was read.
struct Reading {
    /// Lines that were taken.
    lines: u64,
    /// Bytes of them.
    length: u64,
    /// Bytes of the heading that the file does not have.
    heading_left: usize,
    replayed: MadeAgain,
}

impl Review {
    /// Opens a review file of the table, or begins one, and makes its edits again.
    pub fn open(path: &Path, table: &mut Table) -> Result<(Review, MadeAgain), ReviewError> {
        let file = OpenOptions::new().read(true).append(true).create(true).open(path)?;
        if !file.metadata()?.is_file() {
            return Err(io::Error::other("not a file").into());
        }
        lock(&file)?;
        let heading = table.heading();
        let mut out = vec![0; table.rooms().answer];
        let read =
            read_edits(&file, &heading, |line| table.answer(Reader::EDITOR, line, &mut out))?;
        if read.replayed.cut > 0 {
            file.set_len(read.length)?;
        }
        let mut review = Review { file: FrameFile::new(file, read.length) };
        review.file.add_synced(&heading[heading.len() - read.heading_left..])?;
        sync_folder(path)?;
        Ok((review, read.replayed))
    }

    /// A review file on another medium than a file, that holds so many bytes.
    #[cfg(test)]
    pub fn of_file(file: FrameFile) -> Review {
        Review { file }
    }

    /// Keeps an edit that is about to be answered. After an error it is not kept.
    pub fn keep(&mut self, line: &[u8]) -> io::Result<()> {
        let reader = Reader::EDITOR.number();
        let mut frame = Frame::Command { reader, line: line.to_vec() }.encode();
        frame.push(b'\n');
        self.file.add_synced(&frame)
    }
}

/// Compares the first lines with the heading, and makes each edit after them.
fn read_edits(
    file: &File,
    heading: &[u8],
    mut make: impl FnMut(&[u8]) -> Result<Answered, Refusal>,
) -> Result<Reading, ReviewError> {
    let mut input = BufReader::new(file);
    let mut read = Reading {
        lines: 0,
        length: 0,
        heading_left: heading.len(),
        replayed: MadeAgain::default(),
    };
    loop {
        let mut line = Vec::new();
        (&mut input).take(MAX_DIGITS as u64 + 1).read_until(b'\n', &mut line)?;
        let number = read.lines + 1;
        let expected = &heading[heading.len() - read.heading_left..];
        let Some(text) = line.strip_suffix(b"\n") else {
            read.replayed.cut = line.len() as u64;
            return if is_start(&line, expected) { Ok(read) } else { Err(wrong(number, expected)) };
        };
        if expected.is_empty() {
            let edit = edit_of(text).ok_or(ReviewError::BadLine(number))?;
            match make(&edit) {
                Ok(Answered { changed: true, .. }) => read.replayed.edits += 1,
                _ if !is_edit(&edit) => return Err(ReviewError::BadLine(number)),
                // Earlier servers wrote an edit that changed no row too.
                Ok(_) => {}
                Err(refusal) => return Err(ReviewError::Refused(number, refusal)),
            }
        } else if expected.starts_with(&line) {
            read.heading_left -= line.len();
        } else {
            return Err(ReviewError::OtherTable(number));
        }
        read.lines = number;
        read.length += line.len() as u64;
    }
}

/// The command of a frame of reader 0.
fn edit_of(text: &[u8]) -> Option<Vec<u8>> {
    match Frame::decode(text) {
        Ok(Frame::Command { reader, line }) if reader == Reader::EDITOR.number() => Some(line),
        _ => None,
    }
}

/// Whether bytes without LF are the start of a line that a server was about to write.
fn is_start(bytes: &[u8], expected: &[u8]) -> bool {
    if expected.is_empty() {
        let start = bytes.len().min(EDIT_START.len());
        return bytes.len() <= MAX_DIGITS
            && bytes[..start] == EDIT_START[..start]
            && bytes.iter().all(u8::is_ascii_hexdigit);
    }
    expected.starts_with(bytes)
}

/// 43 and reader 0.
const EDIT_START: &[u8] = b"4300";

fn wrong(number: u64, expected: &[u8]) -> ReviewError {
    if expected.is_empty() {
        ReviewError::BadLine(number)
    } else {
        ReviewError::OtherTable(number)
    }
}

/// Returns when the name of a file that may be new is on the disk.
fn sync_folder(path: &Path) -> io::Result<()> {
    let folder = path.parent().filter(|folder| !folder.as_os_str().is_empty());
    File::open(folder.unwrap_or(Path::new(".")))?.sync_all()
}

impl From<io::Error> for ReviewError {
    fn from(error: io::Error) -> ReviewError {
        ReviewError::Failed(error)
    }
}

impl fmt::Display for ReviewError {
    fn fmt(&self, formatter: &mut fmt::Formatter) -> fmt::Result {
        match self {
            ReviewError::Failed(error) => write!(formatter, "{error}"),
            ReviewError::OtherTable(line) => {
                write!(formatter, "line {line}: it belongs to another table")
            }
            ReviewError::BadLine(line) => write!(formatter, "line {line}: no edit of reader 0"),
            ReviewError::Refused(line, refusal) => {
                write!(formatter, "line {line}: the edit is refused with {refusal}")
            }
        }
    }
}

impl Error for ReviewError {}
