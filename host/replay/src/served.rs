//! The server's own log of the night, as `./serve --log` writes it: when each command of a record came, and from whom.
//!
//! Such a file is added to at every start, and the lines of a record count from 1 at each. So the start that belongs to a
//! record is looked for: one whose line has the sum of the record's rows, and whose commands have the words and lines of
//! the record's.

use std::fs::File;
use std::io::{self, BufReader, Seek, SeekFrom};
use std::path::{Path, PathBuf};

use formats::frames::{Frame, MAX_DIGITS};
use formats::sha256::Sum;
use formats::source::next_line;
use formats::text::line_text;
use serve::word_text;

/// More of a line is not looked at.
const LONGEST_LINE: usize = 4_096;
/// The text of a line with which the server starts.
const START: &str = "start: ";
/// In a line, where there is nothing.
const NONE: &str = "-";
/// More starts than these are not compared.
const MOST_STARTS: usize = 1_000;

/// What the server's log has of one command.
#[derive(Clone, Debug, PartialEq, Eq)]
pub struct Logged {
    pub time: String,
    pub connection: String,
    pub peer: String,
    /// The word of the command, and what came of it.
    pub what: String,
}

/// A server's log.
pub struct ServedLog {
    path: PathBuf,
    /// The place of each start, and what it says.
    starts: Vec<(u64, String)>,
}

/// Why a server's log is of no use for a record.
#[derive(Clone, Debug, PartialEq, Eq)]
pub struct LeftOut {
    pub why: String,
    /// Whether it speaks against the record.
    pub is_doubt: bool,
}

impl From<String> for LeftOut {
    fn from(why: String) -> LeftOut {
        LeftOut { why, is_doubt: false }
    }
}

/// The commands of one start, read as they are wanted.
#[derive(Debug)]
pub struct Cursor {
    input: BufReader<File>,
    /// The next command that is in a record, with its line there.
    ahead: Option<(u64, Logged)>,
}

impl ServedLog {
    /// Finds the starts of a file. One without any is no log of a server.
    pub fn open(path: &Path) -> Result<ServedLog, String> {
        let starts = starts_of(path).map_err(|error| format!("cannot be read: {error}"))?;
        match starts.len() {
            0 => Err("it has no line of a server's start, so it is no log of ./serve".to_string()),
            MOST_STARTS.. => Err(format!("it has {MOST_STARTS} starts or more")),
            _ => Ok(ServedLog { path: path.to_path_buf(), starts }),
        }
    }

    /// The commands of the start that a record belongs to, or why they are not known. A log in which no start fits speaks
    /// against the record.
    pub fn of_record(&self, record: &Path, heading: u64, rows: Sum) -> Result<Cursor, LeftOut> {
        let sum = format!("SHA-256 of the packed rows {rows}");
        let mut fitting = Vec::new();
        for (place, _) in self.starts.iter().filter(|(_, start)| start.contains(&sum)) {
            let fits =
                Cursor::at(&self.path, *place).and_then(|cursor| cursor.fits(record, heading));
            if fits.map_err(|error| error.to_string())? {
                fitting.push(*place);
            }
        }
        match fitting.as_slice() {
            [place] => Ok(Cursor::at(&self.path, *place).map_err(|error| error.to_string())?),
            [] => {
                let why = "no start in it has the table and the commands of this log".to_string();
                Err(LeftOut { why, is_doubt: true })
            }
            several => {
                let count = several.len();
                Err(format!("{count} starts in it have the table and the commands of this log")
                    .into())
            }
        }
    }
}

fn starts_of(path: &Path) -> io::Result<Vec<(u64, String)>> {
    let mut input = BufReader::new(File::open(path)?);
    let (mut place, mut starts) = (0, Vec::new());
    while let Some(line) = next_line(&mut input, LONGEST_LINE)? {
        if let Some((_, Logged { what, .. })) =
            entry_of(&line.text).filter(|(_, entry)| entry.what.starts_with(START))
        {
            starts.push((place, what));
        }
        place += line.length + u64::from(!line.is_cut);
        if starts.len() == MOST_STARTS {
            break;
        }
    }
    Ok(starts)
}

/// A line in its five parts; the fourth is the line of a record, if there is one.
fn entry_of(text: &[u8]) -> Option<(Option<u64>, Logged)> {
    let text = line_text(text);
    let mut parts = text.splitn(5, ' ').map(str::to_string);
    let (time, connection, peer) = (parts.next()?, parts.next()?, parts.next()?);
    let (line, what) = (parts.next()?, parts.next()?);
    let is_time = time.len() == "2026-11-17T16:20:57.123Z".len() && time.ends_with('Z');
    let line = if line == NONE { None } else { Some(line.parse().ok()?) };
    is_time.then_some((line, Logged { time, connection, peer, what }))
}

impl Cursor {
    /// At the start whose line is at a place.
    fn at(path: &Path, place: u64) -> io::Result<Cursor> {
        let mut file = File::open(path)?;
        file.seek(SeekFrom::Start(place))?;
        let mut cursor = Cursor { input: BufReader::new(file), ahead: None };
        next_line(&mut cursor.input, LONGEST_LINE)?;
        cursor.step()?;
        Ok(cursor)
    }

    /// Goes to the next command that is in a record.
    fn step(&mut self) -> io::Result<()> {
        self.ahead = None;
        while let Some(line) = next_line(&mut self.input, LONGEST_LINE)? {
            match entry_of(&line.text) {
                Some((Some(number), entry)) => {
                    self.ahead = Some((number, entry));
                    return Ok(());
                }
                Some((None, entry)) if entry.what.starts_with(START) => {
                    // The next start's lines are none of this one's.
                    io::copy(&mut self.input, &mut io::sink())?;
                }
                _ => {}
            }
        }
        Ok(())
    }

    /// What the log has of the command at a line of the record.
    pub fn next_of(&mut self, line: u64) -> io::Result<Option<Logged>> {
        let Some((_, entry)) = self.ahead.take_if(|(number, _)| *number == line) else {
            return Ok(None);
        };
        self.step()?;
        Ok(Some(entry))
    }

    /// How many commands are left.
    pub fn left(mut self) -> io::Result<u64> {
        let mut count = 0;
        while self.ahead.is_some() {
            count += 1;
            self.step()?;
        }
        Ok(count)
    }

    /// Whether every command of a record stands here, in its order, with its word and its line.
    fn fits(mut self, record: &Path, heading: u64) -> io::Result<bool> {
        let mut input = BufReader::new(File::open(record)?);
        let mut number = 0;
        while let Some(line) = next_line(&mut input, MAX_DIGITS + 1)? {
            number += 1;
            let Ok(Frame::Command { line, .. }) = Frame::decode(&line.text) else {
                continue;
            };
            if number <= heading {
                continue;
            }
            let word = word_text(&line) + " ";
            match self.next_of(number)? {
                Some(entry) if entry.what.starts_with(&word) => {}
                _ => return Ok(false),
            }
        }
        Ok(true)
    }
}

#[cfg(test)]
mod tests {
    use crate::served::*;

    #[test]
    fn lines() {
        let line = "2026-11-17T16:20:57.125Z 3 127.0.0.1:54321 14 LIST answered 345 bytes";
        let (number, entry) = entry_of(line.as_bytes()).expect("a line");
        assert_eq!((number, entry.what.as_str()), (Some(14), "LIST answered 345 bytes"));
        assert_eq!((entry.connection.as_str(), entry.peer.as_str()), ("3", "127.0.0.1:54321"));
        let (number, entry) =
            entry_of(b"2026-11-17T16:20:57.125Z - - - start: a b").expect("a line");
        assert_eq!((number, entry.what.as_str()), (None, "start: a b"));
        for bad in ["", "4D00", "2026-11-17T16:20:57.125Z 3 a x LIST", "mailbox Foo exists a b"] {
            assert_eq!(entry_of(bad.as_bytes()), None, "{bad}");
        }
    }
}
