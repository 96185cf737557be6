//! The record: the table at the start, then every command that was handed to the library, with what
//! the library answered, in the order in which they were decided.
//!
//! It is a file of frames: a 4D for each row and a 4E for each entry; then for each command a 43, and
//! in the next line 41 with the answer or 52 with the number of the refusal.

use std::fs::{self, OpenOptions};
use std::io;
use std::path::Path;

use formats::frames::{Frame, ANSWER, REFUSAL};
use formats::hex::hex_of;
use luspemaro::{Reader, Refusal};

use crate::frame_file::{lock, FrameFile};
use crate::table::Table;

/// A 43, and a 41 or 52.
const LINES_A_COMMAND: u64 = 2;

/// A record that is being written.
pub struct FrameLog {
    file: FrameFile,
    /// Lines of the frames that are there.
    lines: u64,
}

impl FrameLog {
    /// Begins a record of the table as it is. A file that is there already is not written to. Where the
    /// table cannot be written to the disk, no file is left, so that a later start can begin one.
    pub fn create(path: &Path, table: &Table) -> io::Result<FrameLog> {
        let file = OpenOptions::new().append(true).create_new(true).open(path)?;
        let begin = || {
            lock(&file)?;
            let mut record = FrameLog { file: FrameFile::new(file, 0), lines: 0 };
            record.begin(&table.heading())?;
            Ok(record)
        };
        begin().inspect_err(|_| {
            // The error that is returned says why there is no record.
            let _ = fs::remove_file(path);
        })
    }

    fn begin(&mut self, heading: &[u8]) -> io::Result<()> {
        self.file.add_synced(heading)?;
        self.lines = heading.iter().filter(|&&byte| byte == b'\n').count() as u64;
        Ok(())
    }

    /// A record on another medium than a file.
    #[cfg(test)]
    pub fn of_file(file: FrameFile) -> FrameLog {
        FrameLog { file, lines: 0 }
    }

    /// Adds a command and what was answered, and returns the line of the command's frame, counted from 1.
    /// After an error neither is there.
    pub fn add(
        &mut self,
        reader: Reader,
        line: &[u8],
        answered: Result<&[u8], Refusal>,
    ) -> io::Result<u64> {
        let command = Frame::Command { reader: reader.number(), line: line.to_vec() };
        let answer = match answered {
            Ok(answer) => [&[ANSWER], answer].concat(),
            Err(refusal) => vec![REFUSAL, refusal.number()],
        };
        self.file.add(&[&command.encode(), &b"\n"[..], &hex_of(&answer), b"\n"].concat())?;
        self.lines += LINES_A_COMMAND;
        Ok(self.lines - 1)
    }

    /// Takes back the command that was added last, and its answer.
    pub fn take_back(&mut self) {
        self.file.take_back();
        self.lines = self.lines.saturating_sub(LINES_A_COMMAND);
    }

    /// Returns when all frames are on the disk.
    pub fn sync(&mut self) -> io::Result<()> {
        self.file.sync()
    }
}
