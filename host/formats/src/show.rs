//! Showing frames and answers as text.

use std::fmt;
use std::iter;

use crate::frames::{Frame, SentFrame};
use crate::hex::hex_of;
use crate::item::{Origin, Sent};
use crate::list_line::{LineWord, ListLine, CRLF};
use crate::namespaces::{split_entries, Entry};
use crate::readers::{Reader, Readers};
use crate::refusal::Refusal;
use crate::reply::Reply;
use crate::rows::{split_rows, Flags, Row};
use crate::text::{line_text, name_text, quoted, quoted_text, shortened};
use crate::utf7::decoded;
use crate::words::{word_of_class, word_of_readers, words_of_flags, words_of_walk_option, READERS};

/// The columns before the text.
const LABEL_WIDTH: usize = 11;
/// The columns of a name before its flags.
const NAME_WIDTH: usize = 28;
/// Of a frame that cannot be read no more than this is shown.
const MOST_OF_BAD_FRAME: usize = 60;
/// Of bytes that are no row or entry no more digits than this are shown.
const MOST_OF_BYTES: usize = 200;

/// Who walks where an item is `walk large`.
pub const BY_LIBRARY: &str = "the library, with larger buffers, and not the program of frames";

/// Lines of text, each with its label, which is empty where a line goes on.
pub struct Shown(Vec<(&'static str, String)>);

impl Shown {
    /// Lines under one label.
    pub fn new(label: &'static str, lines: Vec<String>) -> Shown {
        Shown([label].into_iter().chain(iter::repeat("")).zip(lines).collect())
    }

    pub fn one_line(label: &'static str, line: String) -> Shown {
        Shown::new(label, vec![line])
    }

    /// Each line with its label.
    pub fn lines(&self) -> impl Iterator<Item = (&'static str, &str)> {
        self.0.iter().map(|(label, line)| (*label, line.as_str()))
    }

    /// With the reader that sends it, but for reader 0.
    fn and_reader(mut self, reader: u8) -> Shown {
        if reader != Reader::EDITOR.number() {
            self.0.push(("From", reader_text(reader)));
        }
        self
    }
}

impl fmt::Display for Shown {
    fn fmt(&self, formatter: &mut fmt::Formatter) -> fmt::Result {
        for (label, line) in &self.0 {
            writeln!(formatter, "{label:LABEL_WIDTH$}{line}")?;
        }
        Ok(())
    }
}

pub fn reader_text(reader: u8) -> String {
    format!("reader {reader}")
}

/// What an item sends, or has walked by the library.
pub fn show_sent(sent: &Sent) -> Shown {
    let Sent { frame, length, .. } = sent;
    if sent.is_overlong() {
        return Shown::one_line(
            "Frame",
            shown_start(&frame.text, *length) + cut_text(frame.is_cut),
        );
    }
    let mut shown = show_frame(frame);
    if sent.origin == Origin::LargeWalk {
        shown.0[0].0 = "Walk large";
        shown.0.push(("By", BY_LIBRARY.to_string()));
    }
    shown
}

/// A frame as it is sent.
pub fn show_frame(frame: &SentFrame) -> Shown {
    if frame.is_cut {
        return Shown::one_line("Frame", bad_frame_text(&frame.text) + cut_text(frame.is_cut));
    }
    match Frame::decode(&frame.text) {
        Ok(Frame::Row(table)) => show_table(&table),
        Ok(Frame::Entry(list)) => show_namespaces(&list),
        Ok(Frame::Command { reader, line }) => {
            Shown::new("Command", command_lines(&line)).and_reader(reader)
        }
        Ok(Frame::Walk { reader, option }) => {
            Shown::one_line("Walk", walk_text(option)).and_reader(reader)
        }
        Err(_) => Shown::one_line("Frame", bad_frame_text(&frame.text)),
    }
}

/// The start of a frame that is too long to be shown, and its length.
pub fn shown_start(start: &[u8], length: u64) -> String {
    let start = &start[..start.len().min(MOST_OF_BAD_FRAME)];
    format!("{}… ({length} characters)", line_text(start))
}

/// A run of rows, a line for each, and bytes after them that are no row.
pub fn show_table(table: &[u8]) -> Shown {
    let (rows, rest) = split_rows(table);
    let lines = rows.iter().map(row_text).chain(rest_text(table, rest));
    Shown::new("Mailbox", lines.collect())
}

/// A run of entries, a line for each, and bytes after them that are no entry.
pub fn show_namespaces(list: &[u8]) -> Shown {
    let (entries, rest) = split_entries(list);
    let lines = entries.iter().map(entry_text).chain(rest_text(list, rest));
    Shown::new("Namespace", lines.collect())
}

/// An answer line without its LF.
pub fn show_answer(line: &[u8]) -> Shown {
    show_reply(&Reply::of(line))
}

pub fn show_reply(reply: &Reply) -> Shown {
    match reply {
        Reply::Lines(text) => Shown::new("Answer", answer_lines(text)),
        Reply::Walked { count, found } => Shown::new("Answer", walk_lines(*count, found)),
        Reply::Refused(number) => Shown::one_line("Refused", refusal_text(*number)),
        Reply::Unreadable(line) => Shown::one_line("Unreadable", bad_frame_text(line)),
    }
}

/// The number and the meaning.
pub fn refusal_text(number: u8) -> String {
    format!("{number}: {}", refusal_meaning(number))
}

/// What came of a frame, to stand after "it was".
pub fn came_text(reply: Option<&Reply>) -> String {
    match reply {
        None => "kept".to_string(),
        Some(Reply::Refused(number)) => format!("refused with {}", refusal_text(*number)),
        Some(_) => "answered".to_string(),
    }
}

pub fn refusal_meaning(number: u8) -> &'static str {
    Refusal::from_number(number).map_or("no number of document 01", Refusal::meaning)
}

pub fn counted(count: usize, one: &str, more: &str) -> String {
    format!("{count} {}", if count == 1 { one } else { more })
}

fn cut_text(is_cut: bool) -> &'static str {
    if is_cut {
        " (without LF)"
    } else {
        ""
    }
}

fn bad_frame_text(text: &[u8]) -> String {
    if text.is_empty() {
        return "(empty)".to_string();
    }
    shortened(&line_text(text), MOST_OF_BAD_FRAME)
}

/// A row: its name, what it says, and what its name says in modified UTF-7.
pub fn row_text(row: &Row) -> String {
    let said = said_text(row.flags, row.readers);
    format!("{:NAME_WIDTH$} {said}{}", name_text(row.name), beside(row.name))
}

/// The flags of a row, and who sees it where not all readers do.
pub fn said_text(flags: Flags, readers: Readers) -> String {
    let mut words = words_of_flags(flags);
    if readers != Readers::ALL {
        words += &format!(" {READERS} {}", word_of_readers(readers));
    }
    words
}

fn entry_text(entry: &Entry) -> String {
    let class = word_of_class(entry.class).map(String::from);
    let class = class.unwrap_or_else(|| format!("class {}", entry.class));
    let delimiter = entry.delimiter.map_or("NIL".to_string(), |byte| quoted(&[byte]));
    format!("{class} {} {delimiter}{}", quoted(entry.prefix), beside(entry.prefix))
}

/// What a name says in modified UTF-7, to stand beside its bytes, if it says something else.
pub fn beside(name: &[u8]) -> String {
    decoded(name).map(|text| format!("  = {}", quoted_text(&text))).unwrap_or_default()
}

/// What is left of bytes after whole rows or entries, if anything is, or that they are none.
fn rest_text(bytes: &[u8], rest: &[u8]) -> Option<String> {
    if bytes.is_empty() {
        return Some("(empty)".to_string());
    }
    let digits = line_text(&hex_of(rest));
    (!rest.is_empty()).then(|| format!("bytes {}", shortened(&digits, MOST_OF_BYTES)))
}

/// Lines as a session file has them: those after the first CR LF stand after `+`.
fn command_lines(command: &[u8]) -> Vec<String> {
    let (mut rest, end) = match command.strip_suffix(CRLF) {
        Some(text) => (text, ""),
        None => (command, " (without CR LF)"),
    };
    let mut lines = Vec::new();
    let mut before = "";
    while let Some(at) = rest.windows(CRLF.len()).position(|pair| pair == CRLF) {
        lines.push(format!("{before}{}", line_text(&rest[..at])));
        rest = &rest[at + CRLF.len()..];
        before = "+ ";
    }
    lines.push(format!("{before}{}{end}", line_text(rest)));
    lines
}

fn walk_text(option: u8) -> String {
    let words = words_of_walk_option(option).map(|words| format!(": {words}"));
    format!("option byte {option}{}", words.unwrap_or_default())
}

/// Lines without their CR LF, a LIST line with what its name says beside it.
fn answer_lines(text: &[u8]) -> Vec<String> {
    let shown = |line: &[u8]| {
        let line = line.strip_suffix(b"\n").unwrap_or(line);
        let line = line.strip_suffix(b"\r").unwrap_or(line);
        line_text(line) + &beside_line(line)
    };
    text.split_inclusive(|&byte| byte == b'\n').map(shown).collect()
}

/// What the name of a LIST line without its CR LF says in modified UTF-7, to stand beside the line.
pub fn beside_line(line: &[u8]) -> String {
    let read = ListLine::of(&[line, CRLF].concat()).filter(|line| line.word == LineWord::List);
    read.map(|line| beside(&line.name)).unwrap_or_default()
}

fn walk_lines(count: u16, found: &[Vec<u8>]) -> Vec<String> {
    let commands = counted(count.into(), "command sent", "commands sent");
    let mailboxes = counted(found.len(), "mailbox found", "mailboxes found");
    let names = found.iter().map(|name| name_text(name) + &beside(name));
    iter::once(format!("{commands}, {mailboxes}")).chain(names).collect()
}
