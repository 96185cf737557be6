//! What a record of a session writes before the lines of a server.
//!
//! ```text
//! before = [byte order mark] blanks *(stamp blanks) [mark] blanks
//! stamp  = "[" text with a digit "]" / digits with ":" "." "-" "/" among them / "UTC" / "GMT"
//! mark   = "S:" / "M:" / "F:" / "N:" / "I:" / "O:" / "Read:" / "<" / "<<" / "<<<" / digits "<" / ">"
//! ```
//!
//! `<` is written by curl and imaplib, digits and `<` by mutt, the letters by mbsync, by Dovecot's log of both
//! directions and in the examples of RFCs, `Read:` by Perl's libraries; a time stamp alone stands in Dovecot's raw logs.
//! Thunderbird writes a text of its own that ends in `CreateNewLineFromSocket:`. After it all a line of
//! Python's imaplib is a bytes literal, `b'..'`.

use std::borrow::Cow;

use crate::python::bytes_literal;

pub const BYTE_ORDER_MARK: &[u8] = b"\xEF\xBB\xBF";

const MARKS: [&[u8]; 11] =
    [b"S:", b"M:", b"F:", b"N:", b"I:", b"O:", b"Read:", b"<<<", b"<<", b"<", b">"];
const THUNDERBIRD: &[u8] = b"CreateNewLineFromSocket:";
/// Stamps are a date, a time, a zone, and one number more.
const MOST_STAMPS: usize = 4;

/// A line of a record.
#[derive(Debug)]
pub struct Marked<'t> {
    /// What the record writes before it.
    before: &'t [u8],
    /// What the server or the client wrote.
    pub text: Cow<'t, [u8]>,
}

impl<'t> Marked<'t> {
    /// Of a line without its end.
    pub fn of(line: &'t [u8]) -> Marked<'t> {
        let plain = after_marks(line);
        let rest =
            if is_untagged(plain) { plain } else { after_thunderbird(line).unwrap_or(plain) };
        Marked::at(line, line.len() - rest.len())
    }

    fn at(line: &'t [u8], length: usize) -> Marked<'t> {
        let (before, rest) = line.split_at(length);
        Marked { before, text: bytes_literal(rest).map_or(Cow::Borrowed(rest), Cow::Owned) }
    }

    /// A line before which the same stands, but for its numbers: the next line of a literal.
    pub fn next(&self, line: &'t [u8]) -> Option<Marked<'t>> {
        let rest = after_alike(self.before, line)?;
        Some(Marked::at(line, line.len() - rest.len()))
    }

    /// Whether the line stands in the file as it came.
    pub fn is_raw(&self) -> bool {
        self.before.is_empty() && matches!(self.text, Cow::Borrowed(_))
    }

    pub fn is_untagged(&self) -> bool {
        is_untagged(&self.text)
    }
}

fn is_untagged(text: &[u8]) -> bool {
    text.starts_with(b"* ")
}

fn after_marks(line: &[u8]) -> &[u8] {
    let mut rest = after_blanks(line.strip_prefix(BYTE_ORDER_MARK).unwrap_or(line));
    for _ in 0..MOST_STAMPS {
        rest = after_stamp(rest).map_or(rest, after_blanks);
    }
    after_mark(rest).map_or(rest, after_blanks)
}

pub fn after_blanks(text: &[u8]) -> &[u8] {
    let is_text = |&byte: &u8| !is_blank(byte);
    text.iter().position(is_text).map_or(b"", |at| &text[at..])
}

pub fn is_blank(byte: u8) -> bool {
    byte == b' ' || byte == b'\t'
}

/// What comes after a time stamp, which is a word of its own.
fn after_stamp(text: &[u8]) -> Option<&[u8]> {
    let has_digit = |text: &[u8]| text.iter().any(u8::is_ascii_digit);
    let (stamp, rest) = if text.starts_with(b"[") {
        text.split_at(1 + text.iter().position(|&byte| byte == b']')?)
    } else {
        text.split_at(text.iter().position(|&byte| is_blank(byte))?)
    };
    let is_time = |byte: &u8| byte.is_ascii_digit() || b":.,-/+TZ".contains(byte);
    let is_stamp = match stamp {
        b"UTC" | b"GMT" => true,
        [b'[', inner @ ..] => has_digit(inner),
        // A mark such as `0000:` stands before pieces of lines.
        [first, .., last] if last.is_ascii_digit() || *last == b'Z' => {
            let is_parted = stamp.iter().any(|byte| b":.-/".contains(byte));
            first.is_ascii_digit() && stamp.iter().all(is_time) && is_parted
        }
        _ => false,
    };
    (is_stamp && rest.first().is_some_and(|&byte| is_blank(byte))).then_some(rest)
}

fn after_mark(text: &[u8]) -> Option<&[u8]> {
    let digits = text.iter().take_while(|byte| byte.is_ascii_digit()).count();
    if digits > 0 {
        return text[digits..].strip_prefix(b"<");
    }
    MARKS.iter().find_map(|mark| text.strip_prefix(*mark))
}

fn after_thunderbird(line: &[u8]) -> Option<&[u8]> {
    let at = line.windows(THUNDERBIRD.len()).position(|text| text == THUNDERBIRD)?;
    Some(after_blanks(&line[at + THUNDERBIRD.len()..]))
}

/// What comes after the same bytes in a line, where a run of digits may be another one.
fn after_alike<'t>(before: &[u8], line: &'t [u8]) -> Option<&'t [u8]> {
    let (mut before, mut line) = (before, line);
    while let Some((first, rest)) = before.split_first() {
        if first.is_ascii_digit() {
            let digits = |text: &[u8]| text.iter().take_while(|byte| byte.is_ascii_digit()).count();
            if digits(line) == 0 {
                return None;
            }
            (before, line) = (&before[digits(before)..], &line[digits(line)..]);
        } else {
            (before, line) = (rest, line.strip_prefix(&[*first])?);
        }
    }
    Some(line)
}
