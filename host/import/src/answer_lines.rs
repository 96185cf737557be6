//! The lines of a recorded session, and the responses that go on in several of them.

use crate::marks::Marked;
use crate::response::literal_length;

/// All lines of a record.
pub struct AnswerLines<'t> {
    bytes: &'t [u8],
    /// Each with its end.
    lines: Vec<&'t [u8]>,
}

impl<'t> AnswerLines<'t> {
    pub fn of(bytes: &'t [u8]) -> AnswerLines<'t> {
        AnswerLines { bytes, lines: bytes.split_inclusive(|&byte| byte == b'\n').collect() }
    }

    pub fn length(&self) -> usize {
        self.lines.len()
    }

    /// A line as it stands in the file, without its end.
    pub fn line(&self, at: usize) -> &'t [u8] {
        let line = self.lines[at];
        let line = line.strip_suffix(b"\n").unwrap_or(line);
        line.strip_suffix(b"\r").unwrap_or(line)
    }

    pub fn marked(&self, at: usize) -> Marked<'t> {
        Marked::of(self.line(at))
    }

    /// The response that starts in a line: what the server wrote, through its literals, as far as these end
    /// within this length, and the line end after them. Where a literal is not there it ends with that line.
    ///
    /// A line of the response is a line of the record. A record that writes something before each line has
    /// line ends of its own, so those of the server are put in.
    pub fn response(&self, at: usize, most: usize) -> Vec<u8> {
        let first = self.marked(at);
        let mut text = Vec::new();
        self.add_line(&mut text, at, &first);
        let mut next = at + 1;
        let mut start = 0;
        while let Some(length) = literal_length(&text[start..]) {
            let header = text.len();
            let end = header.saturating_add(length);
            let is_possible = end <= most && length <= self.bytes_from(next);
            if !is_possible || !self.add_lines(&mut text, &mut next, end, &first) {
                text.truncate(header);
                break;
            }
            start = end;
        }
        text
    }

    /// How many lines a client's command has with the message that it appends, if it does so: the server's
    /// "+" stands before the message, unless the client does not wait for it. None where the message is not
    /// there whole.
    pub fn append_length(&self, at: usize) -> Option<usize> {
        let line = self.line(at);
        let verb = line.split(|&byte| byte == b' ').nth(1)?;
        if !verb.eq_ignore_ascii_case(b"APPEND") {
            return None;
        }
        let length = literal_length(line).filter(|&length| length <= self.bytes_from(at + 1))?;
        let has_plus = self.lines.get(at + 1)?.starts_with(b"+");
        let mut count = 1 + usize::from(has_plus);
        let mut taken = 0;
        while taken < length {
            taken += self.lines.get(at + count)?.len();
            count += 1;
        }
        Some(count)
    }

    /// At least as many bytes as the lines from one on can add to a response.
    fn bytes_from(&self, at: usize) -> usize {
        let start = |line: &[u8]| line.as_ptr().addr() - self.bytes.as_ptr().addr();
        let length = self.lines.get(at).map_or(0, |line| self.bytes.len() - start(line));
        length + b"\r\n".len()
    }

    /// Adds lines up to this length and to the end of a line. Whether there are so many.
    fn add_lines(
        &self,
        text: &mut Vec<u8>,
        next: &mut usize,
        end: usize,
        first: &Marked<'t>,
    ) -> bool {
        while text.len() < end || text.len() == end && text.ends_with(b"\n") {
            let is_there = *next < self.length();
            let Some(line) = is_there.then(|| first.next(self.line(*next))).flatten() else {
                return text.len() == end;
            };
            self.add_line(text, *next, &line);
            *next += 1;
        }
        true
    }

    /// Adds a line with its end.
    fn add_line(&self, text: &mut Vec<u8>, at: usize, marked: &Marked) {
        if marked.is_raw() {
            text.extend_from_slice(self.lines[at]);
        } else {
            text.extend_from_slice(&marked.text);
            text.extend_from_slice(b"\r\n");
        }
    }
}
