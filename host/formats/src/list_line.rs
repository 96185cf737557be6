//! The lines of an answer that name a mailbox, read back:
//!
//! ```text
//! "* " ("LIST" / "LSUB") " (" [attribute *(" " attribute)] ") " DQUOTE "/" DQUOTE " " quoted
//!      [" (" DQUOTE "CHILDINFO" DQUOTE " (" criterion *(" " criterion) "))"] CR LF
//! ```
//!
//! Attributes and criteria stand in document 01's order; an LSUB line is read as the LIST line of the same parts.

use crate::name::is_lawful;
use crate::quoted::read_quoted;

/// What a line ends with, of a command and of an answer.
pub const CRLF: &[u8] = b"\r\n";

/// "Attributes, these sixteen, in this order".
const ATTRIBUTES: [&str; 16] = [
    "\\Marked",
    "\\Unmarked",
    "\\Noselect",
    "\\NoInferiors",
    "\\Remote",
    "\\Subscribed",
    "\\NonExistent",
    "\\All",
    "\\Archive",
    "\\Drafts",
    "\\Flagged",
    "\\Junk",
    "\\Sent",
    "\\Trash",
    "\\HasChildren",
    "\\HasNoChildren",
];
/// The one attribute of the line that names the root.
const ROOT_ATTRIBUTE: &str = "\\Noselect";

/// The criteria that CHILDINFO names, in quotes, and without them.
const CRITERIA: [&str; 2] = ["\"SUBSCRIBED\"", "\"SPECIAL-USE\""];
const QUOTE: char = '"';

/// The command that a line answers.
#[derive(Clone, Copy, Debug, PartialEq, Eq)]
pub enum LineWord {
    List,
    Lsub,
}

impl LineWord {
    pub const fn word(self) -> &'static str {
        match self {
            LineWord::List => "LIST",
            LineWord::Lsub => "LSUB",
        }
    }
}

/// The parts of a line that names a mailbox.
#[derive(Clone, Debug, PartialEq, Eq)]
pub struct ListLine {
    pub word: LineWord,
    pub attributes: Vec<&'static str>,
    /// Unquoted. Empty on the root line alone.
    pub name: Vec<u8>,
    /// Empty on a line without CHILDINFO.
    pub childinfo: Vec<&'static str>,
}

impl ListLine {
    /// A line with its CR LF.
    pub fn of(line: &[u8]) -> Option<ListLine> {
        let (word, rest) = match line.strip_prefix(b"* LIST (") {
            Some(rest) => (LineWord::List, rest),
            None => (LineWord::Lsub, line.strip_prefix(b"* LSUB (")?),
        };
        let end = rest.iter().position(|&byte| byte == b')')?;
        let attributes = words_in_order(&rest[..end], &ATTRIBUTES)?;
        let (name, rest) = read_quoted(rest[end..].strip_prefix(b") \"/\" ")?)?;
        let childinfo = read_childinfo(rest.strip_suffix(CRLF)?)?;
        let is_root = name.is_empty() && childinfo.is_empty() && attributes == [ROOT_ATTRIBUTE];
        let is_line = is_root || is_lawful(&name);
        is_line.then_some(ListLine { word, attributes, name, childinfo })
    }
}

/// ` ("CHILDINFO" (criteria))` with one criterion at least, or nothing.
fn read_childinfo(text: &[u8]) -> Option<Vec<&'static str>> {
    if text.is_empty() {
        return Some(Vec::new());
    }
    let words = text.strip_prefix(b" (\"CHILDINFO\" (")?.strip_suffix(b"))")?;
    let criteria = words_in_order(words, &CRITERIA).filter(|criteria| !criteria.is_empty())?;
    Some(criteria.into_iter().map(|word| word.trim_matches(QUOTE)).collect())
}

/// Any of some words in their order, parted by single spaces.
fn words_in_order(text: &[u8], known: &[&'static str]) -> Option<Vec<&'static str>> {
    if text.is_empty() {
        return Some(Vec::new());
    }
    let mut left = known.iter();
    text.split(|&byte| byte == b' ')
        .map(|word| left.find(|known| known.as_bytes() == word).copied())
        .collect()
}
