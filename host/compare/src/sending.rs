//! From bytes to the frames of a session.

use formats::frames::{SentFrame, COMMAND, ENTRY, MAX_DIGITS, ROW, WALK};
use formats::hex::hex_of;
use formats::rows::{split_rows, Row};

use crate::random::Random;
use crate::tables::{table_bytes, NewRow};
use crate::walks::{REFUSED_OPTIONS, WALKS};

/// The most bytes behind the first one of a frame.
pub const MAX_PIECE: usize = MAX_DIGITS / 2 - 1;
/// The longest line of a frame, behind its reader.
pub const MAX_SENT_LINE: usize = MAX_PIECE - 1;

/// A session under way.
pub struct Sending<'r> {
    pub random: &'r mut Random,
    pub frames: Vec<SentFrame>,
    /// From whom commands and walks come.
    pub reader: u8,
}

impl Sending<'_> {
    pub fn new(random: &mut Random) -> Sending<'_> {
        Sending { random, frames: Vec::new(), reader: 0 }
    }

    /// One that begins with a table.
    pub fn over<'r>(random: &'r mut Random, rows: &[NewRow]) -> Sending<'r> {
        let mut sending = Sending::new(random);
        sending.table(&table_bytes(rows));
        sending
    }

    pub fn command(&mut self, line: &[u8]) {
        self.frame(COMMAND, &[&[self.reader], line].concat());
    }

    /// So many commands, each as far as a frame holds it.
    pub fn commands(&mut self, count: usize, mut line: impl FnMut(&mut Random) -> Vec<u8>) {
        for _ in 0..count {
            let line = line(self.random);
            self.command(&line[..line.len().min(MAX_SENT_LINE)]);
        }
    }

    /// Text of a command, CR LF not included.
    pub fn command_text(&mut self, text: &str) {
        self.command(format!("{text}\r\n").as_bytes());
    }

    pub fn walk(&mut self, option: u8) {
        self.frame(WALK, &[self.reader, option]);
    }

    /// A walk with each lawful option byte, and with some that are refused.
    pub fn every_walk(&mut self) {
        for option in WALKS.iter().map(|walk| walk.option).chain(REFUSED_OPTIONS) {
            self.walk(option);
        }
    }

    /// A table, a frame for each row, or cut anywhere.
    pub fn table(&mut self, table: &[u8]) {
        let (rows, rest) = split_rows(table);
        if self.random.percent(20) {
            return self.pieces(ROW, table);
        }
        for bytes in rows.iter().filter_map(Row::to_bytes) {
            self.frame(ROW, &bytes);
        }
        self.pieces(ROW, rest);
    }

    pub fn namespaces(&mut self, list: &[u8]) {
        self.pieces(ENTRY, list);
    }

    /// A frame as it stands, bad or not.
    pub fn raw(&mut self, text: &[u8]) {
        self.frames.push(SentFrame { text: text.to_vec(), is_cut: false });
    }

    /// The last frame, without LF.
    pub fn cut(&mut self, text: &[u8]) {
        self.frames.push(SentFrame { text: text.to_vec(), is_cut: true });
    }

    /// Bytes cut anywhere, into frames of one first byte.
    fn pieces(&mut self, first: u8, mut bytes: &[u8]) {
        let most = self.random.pick(&[&3, &40, &500, &MAX_PIECE]);
        while !bytes.is_empty() {
            let length = self.random.within(0..=*most).min(bytes.len());
            let (piece, rest) = bytes.split_at(length);
            self.frame(first, piece);
            bytes = rest;
        }
    }

    /// A frame in upper case, in lower case, or in both.
    pub fn frame(&mut self, first: u8, bytes: &[u8]) {
        let mut text = hex_of(&[&[first], bytes].concat());
        match self.random.below(10) {
            0 => text.make_ascii_lowercase(),
            1 => {
                for digit in text.iter_mut().filter(|_| self.random.percent(50)) {
                    digit.make_ascii_lowercase();
                }
            }
            _ => {}
        }
        self.raw(&text);
    }
}
