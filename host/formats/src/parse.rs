//! Reading one line of a session file.

use crate::frames::Frame;
use crate::item::Origin;
use crate::list_line::CRLF;
use crate::namespaces::Entry;
use crate::quoted::{push_quoted, read_quoted};
use crate::readers::Readers;
use crate::refusal::Refusal;
use crate::rows::Row;
use crate::text::{comment_text, line_text, shortened};
use crate::words::{
    class_of_word, class_words, flag_words, flags_of_words, readers_of_word, walk_option_of_words,
    walk_words, LARGE, READERS,
};

/// What a line says.
#[derive(Debug)]
pub enum Parsed {
    Nothing,
    Comment(String),
    AsGiven,
    /// Commands and walks after this line come from this reader.
    Reader(u8),
    /// The text of a frame, and what it was made from.
    Frame(Vec<u8>, Origin),
}

/// The bytes of a string, and what comes after it.
type StringAndRest<'t> = (Vec<u8>, &'t [u8]);

const ITEM_WORDS: &str = "mailbox, namespace, reader, command, subscribe, unsubscribe, walk, \
                          frame, expect, order, or # for a comment";
const LONE_CONTINUATION: &str = "+ goes on with a command, which stands in the line before";
const LONE_EXPECTATION: &str = "expect says what the item in the line before is refused with";
const ORDERS: &str = "the one order is as-given; without it mailbox lines are sorted";
/// Of a word that is not known no more than this is shown.
const MOST_OF_WORD: usize = 40;

/// One line without its line end, or a command with the lines that go on with it, CR LF between
/// them; or what is wrong with it. A command or a walk comes from this reader.
pub fn parse_line(line: &[u8], reader: u8) -> Result<Parsed, String> {
    if line.is_empty() {
        return Ok(Parsed::Nothing);
    }
    if line.starts_with(b"#") {
        return Ok(Parsed::Comment(comment_text(line)));
    }
    let (keyword, rest) = split_keyword(line);
    match keyword {
        b"mailbox" => parse_mailbox(rest),
        b"namespace" => parse_namespace(rest),
        b"reader" => parse_reader(rest),
        b"command" => Ok(other(&Frame::Command { reader, line: [rest, CRLF].concat() })),
        b"subscribe" => parse_edit(reader, "s SUBSCRIBE ", rest),
        b"unsubscribe" => parse_edit(reader, "u UNSUBSCRIBE ", rest),
        b"walk" => parse_walk(reader, rest),
        b"frame" => Ok(Parsed::Frame(rest.to_vec(), Origin::Other)),
        b"order" if rest.trim_ascii() == b"as-given" => Ok(Parsed::AsGiven),
        b"order" => Err(ORDERS.to_string()),
        b"+" => Err(LONE_CONTINUATION.to_string()),
        b"expect" => Err(LONE_EXPECTATION.to_string()),
        _ => Err(unknown("item", keyword, ITEM_WORDS)),
    }
}

/// Whether lines after this one may go on with it.
pub fn is_command(line: &[u8]) -> bool {
    split_keyword(line).0 == b"command"
}

/// What a line goes on with, if it goes on with the command in the line before.
pub fn continuation_of(line: &[u8]) -> Option<&[u8]> {
    let (keyword, rest) = split_keyword(line);
    (keyword == b"+").then_some(rest)
}

/// What a line expects of the item in the line before, if it is such a line.
pub fn expectation_of(line: &[u8]) -> Option<Result<Refusal, String>> {
    let (keyword, rest) = split_keyword(line);
    (keyword == b"expect").then(|| parse_expectation(rest))
}

/// NUMBER
fn parse_expectation(text: &[u8]) -> Result<Refusal, String> {
    let number = words_of(text)?.parse().ok();
    let refusal = number.and_then(Refusal::from_number);
    refusal.ok_or_else(|| "expect takes the number of a refusal, 1 to 16".to_string())
}

/// The word that a line starts with, and what comes after it and one space or tab.
fn split_keyword(line: &[u8]) -> (&[u8], &[u8]) {
    let length = line.iter().take_while(|&&byte| !is_blank(byte)).count();
    let (keyword, rest) = line.split_at(length);
    (keyword, rest.get(1..).unwrap_or_default())
}

fn is_blank(byte: u8) -> bool {
    byte == b' ' || byte == b'\t'
}

fn other(frame: &Frame) -> Parsed {
    Parsed::Frame(frame.encode(), Origin::Other)
}

/// NUMBER, also one that no reader has
fn parse_reader(text: &[u8]) -> Result<Parsed, String> {
    let number = words_of(text)?.parse().ok();
    let message = "reader takes a number, 0 to 7; up to 255 it is sent, and refused with 16";
    number.map(Parsed::Reader).ok_or_else(|| message.to_string())
}

/// NAME FLAG... [readers READERS]
fn parse_mailbox(text: &[u8]) -> Result<Parsed, String> {
    let (name, words) = parse_string(text)?.ok_or("a mailbox has a name and flags")?;
    let words: Vec<&str> = words_of(words)?.split_whitespace().collect();
    let (flags, readers) = split_readers(&words)?;
    if flags.is_empty() {
        return Err("the mailbox has no flags; 0000 stands for none".to_string());
    }
    let flags =
        flags_of_words(flags).map_err(|word| unknown("flag", word.as_bytes(), &flag_words()))?;
    let row = Row { flags, readers, name: &name }.to_bytes();
    let row = row.ok_or("a name has at most 255 bytes in a row")?;
    Ok(Parsed::Frame(Frame::Row(row).encode(), Origin::Mailbox(name)))
}

/// The words before `readers`, and the set that the word after it names; all readers without it.
fn split_readers<'w, 't>(words: &'w [&'t str]) -> Result<(&'w [&'t str], Readers), String> {
    const SHAPE: &str = "after readers stands one word: 0 to 7 parted by commas, all or none";
    let Some(at) = words.iter().position(|&word| word == READERS) else {
        return Ok((words, Readers::ALL));
    };
    let readers = match words[at + 1..] {
        [word] => readers_of_word(word),
        _ => None,
    };
    Ok((&words[..at], readers.ok_or(SHAPE)?))
}

/// CLASS PREFIX DELIMITER, the last of them quoted or NIL
fn parse_namespace(text: &[u8]) -> Result<Parsed, String> {
    const SHAPE: &str = "a namespace has a class, a quoted prefix and a quoted delimiter or NIL";
    let (class, rest) = parse_string(text)?.ok_or(SHAPE)?;
    let (prefix, rest) = parse_string(rest)?.ok_or(SHAPE)?;
    let class = words_of(&class)?;
    let class = class_of_word(class)
        .ok_or_else(|| unknown("class of namespaces", class.as_bytes(), &class_words()))?;
    let delimiter = match rest.trim_ascii() {
        b"NIL" => None,
        quoted => match parse_string(quoted)?.ok_or(SHAPE)? {
            (delimiter, b"") if delimiter.len() == 1 => Some(delimiter[0]),
            _ => return Err("a delimiter is one byte in quotes, or NIL".to_string()),
        },
    };
    let entry = Entry { class, prefix: &prefix, delimiter }.to_bytes();
    let entry = entry.ok_or("a prefix has at most 255 bytes in an entry")?;
    Ok(Parsed::Frame(Frame::Entry(entry).encode(), Origin::Namespace))
}

/// NAME, sent in quotes, or as a literal where it has bytes that quotes may not hold
fn parse_edit(reader: u8, start: &str, text: &[u8]) -> Result<Parsed, String> {
    const SHAPE: &str = "one name is subscribed or unsubscribed, in quotes if it has spaces";
    let (name, rest) = parse_string(text)?.ok_or(SHAPE)?;
    if !rest.trim_ascii().is_empty() {
        return Err(SHAPE.to_string());
    }
    let mut line = start.as_bytes().to_vec();
    if name.iter().all(|&byte| byte.is_ascii() && byte != b'\r') {
        push_quoted(&mut line, &name);
    } else {
        line.extend_from_slice(format!("{{{}}}\r\n", name.len()).as_bytes());
        line.extend_from_slice(&name);
    }
    Ok(other(&Frame::Command { reader, line: [&line, CRLF].concat() }))
}

/// [large] *(remote / special-use / without-subscribed / NUMBER)
fn parse_walk(reader: u8, text: &[u8]) -> Result<Parsed, String> {
    let words = words_of(text)?;
    let (origin, words) = match words.split_once(char::is_whitespace) {
        _ if words == LARGE => (Origin::LargeWalk, ""),
        Some((LARGE, words)) => (Origin::LargeWalk, words),
        _ => (Origin::Other, words),
    };
    let option = walk_option_of_words(words);
    let option =
        option.map_err(|word| unknown("option of a walk", word.as_bytes(), &walk_words()))?;
    Ok(Parsed::Frame(Frame::Walk { reader, option }.encode(), origin))
}

const BAD_QUOTED: &str = "a quoted string ends with a quote, and a backslash in it stands \
                          before a quote or a backslash";

/// A string, quoted or up to the next space or tab, and what comes after it; nothing if no string
/// is left.
fn parse_string(text: &[u8]) -> Result<Option<StringAndRest<'_>>, String> {
    let text = text.trim_ascii_start();
    if text.is_empty() {
        return Ok(None);
    }
    if text.starts_with(b"\"") {
        return read_quoted(text).map(Some).ok_or_else(|| BAD_QUOTED.to_string());
    }
    let length = text.iter().take_while(|&&byte| !is_blank(byte)).count();
    Ok(Some((text[..length].to_vec(), &text[length..])))
}

fn words_of(text: &[u8]) -> Result<&str, String> {
    let no_text = |_| format!("\"{}\" is no text", shortened(&line_text(text), MOST_OF_WORD));
    str::from_utf8(text).map(str::trim).map_err(no_text)
}

fn unknown(kind: &str, word: &[u8], known: &str) -> String {
    let word = shortened(&line_text(word), MOST_OF_WORD);
    format!("unknown {kind} \"{word}\"; known are {known}")
}
