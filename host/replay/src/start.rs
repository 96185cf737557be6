//! The table and the namespace list that a log starts from: those of a file, or those of the log's own first lines.

use std::io::{self, Read};
use std::path::Path;

use formats::frames::{Frame, MAX_DIGITS};
use formats::sha256::{sum_of_bytes, Sum};
use serve::load;
use session::sum_of_file;

use crate::pieces::Pieces;
use crate::second_program::{namespaces_fault, table_fault};
use crate::table::KeptTable;

/// Packed rows and entries, not judged.
#[derive(Clone, Debug, Default, PartialEq, Eq)]
pub struct Start {
    pub rows: Vec<u8>,
    pub entries: Vec<u8>,
    pub from: LogStart,
}

/// Where they come from.
#[derive(Clone, Debug, PartialEq, Eq)]
pub enum LogStart {
    /// A file, of which so many items are no rows and no entries. The sum is none where it could not be read.
    File { left_out: u64, sum: Option<Sum> },
    /// So many lines at the beginning of the log.
    Heading(u64),
}

impl Default for LogStart {
    fn default() -> LogStart {
        LogStart::Heading(0)
    }
}

impl Start {
    /// Those of a file, as `./serve` takes it.
    pub fn of_file(path: &Path) -> Result<Start, String> {
        let loaded = load(path).map_err(|error| error.to_string())?;
        let from = LogStart::File { left_out: loaded.left_out, sum: sum_of_file(path).ok() };
        Ok(Start { rows: loaded.rows, entries: loaded.entries, from })
    }

    /// Those of the rows and entries with which a log begins. What comes next is the log itself, a frame that is none of
    /// these or cannot be read among it.
    pub fn of_heading<R: Read>(log: &mut Pieces<R>) -> io::Result<Start> {
        let mut start = Start::default();
        let mut lines = 0;
        loop {
            let ahead = log.peek(MAX_DIGITS + 1)?;
            let Some(length) = ahead.iter().take(MAX_DIGITS + 1).position(|&byte| byte == b'\n')
            else {
                break;
            };
            match Frame::decode(&ahead[..length]) {
                Ok(Frame::Row(row)) => start.rows.extend(row),
                Ok(Frame::Entry(entry)) => start.entries.extend(entry),
                _ => break,
            }
            log.take(length + 1);
            lines += 1;
            if start.rows.len() > MOST_BYTES || start.entries.len() > MOST_BYTES {
                return Err(io::Error::new(io::ErrorKind::FileTooLarge, TOO_MANY));
            }
        }
        start.from = LogStart::Heading(lines);
        Ok(start)
    }

    /// Lines of the log's file before its first frame that is replayed.
    pub fn lines(&self) -> u64 {
        match self.from {
            LogStart::File { .. } => 0,
            LogStart::Heading(lines) => lines,
        }
    }

    /// The table that is lent, or why there is none.
    pub fn table(&self) -> Result<KeptTable, String> {
        KeptTable::of_packed(&self.rows)
    }

    /// Of the packed rows, as a report of `./run` has it.
    pub fn rows_sum(&self) -> Sum {
        sum_of_bytes(&self.rows)
    }

    /// Why commands over this start are refused with 1 or 2, in the second program's words; nothing where both pass, by the
    /// library's word.
    pub fn faults(&self, table: &KeptTable) -> Vec<String> {
        let fault = || format!("the table does not pass (1): {}", table_fault(&self.rows));
        let of_table = (!table.passes()).then(fault);
        let fault =
            || format!("the namespace list does not pass (2): {}", namespaces_fault(&self.entries));
        let of_list = (!luspemaro::check_namespaces(&self.entries)).then(fault);
        of_table.into_iter().chain(of_list).collect()
    }
}

/// More than any table or list that is replayed.
const MOST_BYTES: usize = 32_768;
const TOO_MANY: &str = "over 32768 bytes of rows or entries at its beginning";

#[cfg(test)]
mod tests {
    use crate::start::*;

    fn heading(log: &[u8]) -> (Start, Vec<u8>) {
        let mut pieces = Pieces::new(log, false);
        let start = Start::of_heading(&mut pieces).expect("bytes");
        (start, pieces.peek(log.len() + 1).expect("bytes").to_vec())
    }

    #[test]
    fn rows_and_entries_come_first() {
        let cases: [(&[u8], u64, &[u8]); 8] = [
            (b"", 0, b""),
            (b"4D000101\n4e00002F\n4300\n4D00\n", 2, b"4300\n4D00\n"),
            (b"4d000101\n4D", 1, b"4D"),
            (b"4D0\n", 0, b"4D0\n"),
            (b"4D00\r\n", 0, b"4D00\r\n"),
            (b"# 4D\n4D00\n", 0, b"# 4D\n4D00\n"),
            (b"\n4D00\n", 0, b"\n4D00\n"),
            (b"4D\n", 1, b""),
        ];
        for (log, lines, rest) in cases {
            let (start, left) = heading(log);
            assert_eq!((start.lines(), left.as_slice()), (lines, rest), "{log:?}");
        }
        let (start, _) = heading(b"4D0001\n4E0000\n4D02\n");
        assert_eq!((start.rows, start.entries), (b"\0\x01\x02".to_vec(), b"\0\0".to_vec()));
    }

    #[test]
    fn a_heading_without_end() {
        let row = format!("4D{}\n", "00".repeat(2_000));
        let log = row.repeat(17);
        let mut pieces = Pieces::new(log.as_bytes(), false);
        assert!(Start::of_heading(&mut pieces).is_err());
        // A longer frame is none of them.
        let long = format!("4D{}\n", "00".repeat(2_051));
        assert_eq!(heading(long.as_bytes()).0.lines(), 0);
        let longest = format!("4D{}\n", "00".repeat(2_050));
        assert_eq!(heading(longest.as_bytes()).0.lines(), 1);
    }
}
