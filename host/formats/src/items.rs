//! From the lines of a session to its items.

use std::io::{self, BufRead, Cursor};

use crate::error::{BadLine, SessionError};
use crate::frames::{SentFrame, MAX_DIGITS};
use crate::item::{Content, Item, Origin, Sent};
use crate::list_line::CRLF;
use crate::parse::{continuation_of, expectation_of, is_command, parse_line, Parsed};
use crate::refusal::Refusal;
use crate::source::{next_line, Source, SourceLine};

/// The most bytes of an item of a session file; none needs as many.
const MAX_ITEM_LINE: usize = 16_384;
/// Some editors write these bytes before the first line.
const BYTE_ORDER_MARK: &[u8] = b"\xEF\xBB\xBF";

/// What the lines of a session are.
#[derive(Clone, Copy, Debug, PartialEq, Eq)]
pub enum Lines {
    /// Frames, sent as they stand.
    Frames,
    /// Items, one a line.
    Items,
}

/// The items of a session, in the order in which they stand. After a line that is no item the
/// others follow.
pub struct Items {
    input: Cursor<Source>,
    lines: Lines,
    /// How many lines were taken.
    number: u64,
    /// The next line, if it was looked at already.
    ahead: Option<SourceLine>,
    has_failed: bool,
    /// Of the commands and walks to come.
    reader: u8,
}

impl Iterator for Items {
    type Item = Result<Item, SessionError>;

    fn next(&mut self) -> Option<Result<Item, SessionError>> {
        while !self.has_failed {
            let item = match self.take_line() {
                Ok(None) => return None,
                Ok(Some(line)) => self.item_of(line),
                Err(error) => Err(error.into()),
            };
            self.has_failed = matches!(item, Err(SessionError::Unreadable(_)));
            if let Some(item) = item.transpose() {
                return Some(item);
            }
        }
        None
    }
}

impl Items {
    pub fn new(source: &Source, lines: Lines) -> Items {
        Items { input: source.open(), lines, number: 0, ahead: None, has_failed: false, reader: 0 }
    }

    fn take_line(&mut self) -> io::Result<Option<SourceLine>> {
        self.look_ahead()?;
        self.number += 1;
        Ok(self.ahead.take())
    }

    fn look_ahead(&mut self) -> io::Result<()> {
        if self.ahead.is_none() {
            let most = if self.lines == Lines::Frames { MAX_DIGITS + 1 } else { MAX_ITEM_LINE };
            self.ahead = next_line(&mut self.input, most)?;
        }
        Ok(())
    }

    /// An item from its first line on, nothing for an empty line, or what is wrong with it.
    fn item_of(&mut self, line: SourceLine) -> Result<Option<Item>, SessionError> {
        let number = self.number;
        if self.lines == Lines::Frames {
            return Ok(Some(Item { line: number, content: Content::Sent(frame_of(line)) }));
        }
        let mut text = item_text(&line, number == 1).to_vec();
        let mut length = line.length;
        if is_command(&text) {
            length += self.take_continuations(&mut text)?;
        }
        let parsed = match parse_line(&text, self.reader) {
            Ok(_) if length > MAX_ITEM_LINE as u64 => Err(format!("over {MAX_ITEM_LINE} bytes")),
            parsed => parsed,
        };
        match parsed {
            Ok(parsed) => {
                Ok(self.content_of(parsed)?.map(|content| Item { line: number, content }))
            }
            Err(message) => {
                let mut bad = vec![BadLine { number, message }];
                bad.extend(self.skip_what_belongs()?);
                Err(SessionError::Lines { bad, more: 0 })
            }
        }
    }

    fn content_of(&mut self, parsed: Parsed) -> Result<Option<Content>, SessionError> {
        Ok(match parsed {
            Parsed::Nothing => None,
            Parsed::Comment(comment) => Some(Content::Comment(comment)),
            Parsed::AsGiven => Some(Content::AsGiven),
            Parsed::Reader(reader) => {
                self.reader = reader;
                None
            }
            Parsed::Frame(text, origin) => {
                let (length, expected) = (text.len() as u64, self.take_expectation()?);
                let frame = SentFrame { text, is_cut: false };
                Some(Content::Sent(Sent { frame, length, origin, expected }))
            }
        })
    }

    /// Adds the lines that go on with a command, CR LF before each, and gives their length. No more
    /// are taken than show that there are too many.
    fn take_continuations(&mut self, command: &mut Vec<u8>) -> io::Result<u64> {
        let mut length = 0;
        while length <= MAX_ITEM_LINE as u64 {
            self.look_ahead()?;
            let line = self.ahead.as_ref();
            let Some(added) = line.and_then(|line| continuation_of(item_text(line, false))) else {
                break;
            };
            if command == b"command" {
                // The word alone is a command without text, and what goes on is not its end.
                command.push(b' ');
            }
            command.extend_from_slice(CRLF);
            command.extend_from_slice(added);
            length += self.take_line()?.map_or(0, |line| line.length);
        }
        Ok(length)
    }

    /// What the next line expects, if it is about the item before it.
    fn take_expectation(&mut self) -> Result<Option<Refusal>, SessionError> {
        self.look_ahead()?;
        let line = self.ahead.as_ref();
        let Some(expected) = line.and_then(|line| expectation_of(item_text(line, false))) else {
            return Ok(None);
        };
        self.take_line()?;
        expected.map(Some).map_err(|message| SessionError::line(self.number, message))
    }

    /// Leaves out the lines that belong to one that is no item: those that go on with it, and what it
    /// expects. They are not wrong by themselves, unless it expects what is no refusal.
    fn skip_what_belongs(&mut self) -> io::Result<Option<BadLine>> {
        loop {
            self.look_ahead()?;
            let text = self.ahead.as_ref().map(|line| item_text(line, false)).unwrap_or_default();
            let expected = expectation_of(text);
            if expected.is_none() && continuation_of(text).is_none() {
                return Ok(None);
            }
            self.take_line()?;
            if let Some(expected) = expected {
                return Ok(expected.err().map(|message| BadLine { number: self.number, message }));
            }
        }
    }
}

/// A file whose first line, empty ones not counted, starts with a digit 0 to 9 or is hexadecimal
/// alone is a file of frames: frames start with 4 or 5, and the word of an item does not. And
/// whether that line ends with CR.
pub fn lines_of(input: &mut impl BufRead) -> io::Result<(Lines, bool)> {
    let mut is_first = true;
    while let Some(line) = next_line(input, MAX_DIGITS + 1)? {
        let has_cr = line.text.ends_with(b"\r");
        let text = without_mark(&line.text, is_first).trim_ascii();
        is_first = false;
        if let Some(first) = text.first() {
            let is_frame = first.is_ascii_digit() || text.iter().all(u8::is_ascii_hexdigit);
            return Ok((if is_frame { Lines::Frames } else { Lines::Items }, has_cr));
        }
        if line.is_overlong() {
            break;
        }
    }
    Ok((Lines::Items, false))
}

fn frame_of(line: SourceLine) -> Sent {
    let SourceLine { text, length, is_cut } = line;
    let frame = SentFrame { text, is_cut };
    Sent { frame, length, origin: Origin::Other, expected: None }
}

/// A line of a session file without what an editor may have left before and after it.
fn item_text(line: &SourceLine, is_first: bool) -> &[u8] {
    let text = without_mark(&line.text, is_first);
    text.strip_suffix(b"\r").unwrap_or(text).trim_ascii_start()
}

fn without_mark(text: &[u8], is_first: bool) -> &[u8] {
    text.strip_prefix(BYTE_ORDER_MARK).filter(|_| is_first).unwrap_or(text)
}
