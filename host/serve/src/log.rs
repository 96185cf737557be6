//! The log: a line for each connection, command, refusal of the feeder and line of the server itself, in
//! the order in which they were decided.
//!
//! A line has five parts with a space between them: the time in UTC, the number of the connection, the
//! peer, the line of the command's frame in the record, and what happened, which goes on to the end of
//! the line. Where there is no such number or peer, `-` stands in its place.

use std::fmt::Display;
use std::fs::{File, OpenOptions};
use std::io::{self, Read, Seek, SeekFrom};
use std::path::Path;
use std::time::SystemTime;

use formats::text::line_text;

use crate::clock::time_text;
use crate::frame_file::{lock, FrameFile};

/// More of a word is left out.
const LONGEST_WORD: usize = 40;
const NONE: &str = "-";
/// A line begins so, with any digits for the nines.
const TIME_SHAPE: &[u8] = b"9999-99-99T99:99:99.999Z ";

/// A log that is being written.
pub struct Log {
    file: FrameFile,
}

/// A connection as the log names it.
#[derive(Clone, Debug, PartialEq, Eq)]
pub struct Peer {
    /// Counted from 1, those that are turned away too.
    pub connection: u64,
    /// The client's address and port, or `tunnel`.
    pub address: String,
}

impl Log {
    /// Opens a log to add to it, or begins one. A last line that has no end gets one. A file that holds something
    /// else is not written to, a table that is named by mistake among them.
    pub fn open(path: &Path) -> io::Result<Log> {
        let mut file = OpenOptions::new().read(true).append(true).create(true).open(path)?;
        if !file.metadata()?.is_file() {
            return Err(io::Error::other("not a file"));
        }
        lock(&file)?;
        if !begins_with_time(&mut file)? {
            return Err(io::Error::other("it is there and is no log"));
        }
        let (length, is_whole) = (file.metadata()?.len(), ends_in_lf(&mut file)?);
        let mut file = FrameFile::new(file, length);
        if !is_whole {
            file.add(b"\n")?;
        }
        Ok(Log { file })
    }

    /// A log on another medium than a file.
    #[cfg(test)]
    pub fn of_file(file: FrameFile) -> Log {
        Log { file }
    }

    /// Adds a line, by one write. After an error it is not there.
    pub fn add(
        &mut self,
        peer: Option<&Peer>,
        frame: Option<u64>,
        what: impl Display,
    ) -> io::Result<()> {
        let time = time_text(SystemTime::now());
        let number = |number: Option<u64>| number.map_or(NONE.to_string(), |n| n.to_string());
        let connection = number(peer.map(|peer| peer.connection));
        let address = peer.map_or(NONE, |peer| &peer.address);
        let text = format!("{time} {connection} {address} {} {what}", number(frame));
        // What a client sent is escaped already; no other text may part a line either.
        self.file.add(format!("{}\n", text.replace(char::is_control, "?")).as_bytes())
    }

    /// Takes back the line that was added last.
    pub fn take_back(&mut self) {
        self.file.take_back();
    }

    /// Returns when all lines are on the disk.
    pub fn sync(&mut self) -> io::Result<()> {
        self.file.sync()
    }
}

/// Whether the first bytes of a file are those of a log, or of one that was cut.
fn begins_with_time(file: &mut File) -> io::Result<bool> {
    let mut first = Vec::new();
    file.take(TIME_SHAPE.len() as u64).read_to_end(&mut first)?;
    let is_shape = |(byte, shape): (&u8, &u8)| match shape {
        b'9' => byte.is_ascii_digit(),
        _ => byte == shape,
    };
    Ok(first.iter().zip(TIME_SHAPE).all(is_shape))
}

fn ends_in_lf(file: &mut File) -> io::Result<bool> {
    if file.metadata()?.len() == 0 {
        return Ok(true);
    }
    let mut last = [0];
    file.seek(SeekFrom::End(-1))?;
    file.read_exact(&mut last)?;
    Ok(last == *b"\n")
}

/// The word after the tag of a line, as the log shows it.
pub fn word_text(line: &[u8]) -> String {
    let mut words = line.split(|byte| b" \r\n".contains(byte));
    let word = words.nth(1).filter(|word| !word.is_empty()).unwrap_or(NONE.as_bytes());
    let shown = line_text(&word[..word.len().min(LONGEST_WORD)]);
    shown + if word.len() > LONGEST_WORD { ".." } else { "" }
}

#[cfg(test)]
mod tests {
    use crate::frame_file::tests::Fake;
    use crate::log::*;

    #[test]
    fn words() {
        let long = format!("a {}\r\n", "x".repeat(50));
        let shown = format!("{}..", "x".repeat(40));
        let cases: [(&[u8], &str); 7] = [
            (b"a LIST \"\" *\r\n", "LIST"),
            (b"a NOOP\r\n", "NOOP"),
            (b"a\r\n", "-"),
            (b"", "-"),
            (b"a  LIST\r\n", "-"),
            (b"a \x1B[2Jx\xFF\r\n", "\\x1B[2Jx\\xFF"),
            (long.as_bytes(), &shown),
        ];
        for (line, expected) in cases {
            assert_eq!(word_text(line), expected, "{line:?}");
        }
    }

    #[test]
    fn lines() {
        let fake = Fake::default();
        let mut log = Log::of_file(FrameFile::new(fake.clone(), 0));
        let peer = Peer { connection: 3, address: "127.0.0.1:5".to_string() };
        log.add(Some(&peer), Some(14), "LIST answered").expect("room");
        log.add(None, None, "a\nb").expect("room");
        let text = fake.text();
        let lines: Vec<&str> = text.lines().map(|line| &line[25..]).collect();
        assert_eq!(lines, ["3 127.0.0.1:5 14 LIST answered", "- - - a?b"], "{text}");
    }
}
