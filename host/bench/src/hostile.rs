//! Commands that take long, each over a table of its own: written in a line of a file, made by the search, and measured.
//!
//! A line has six fields with `; ` between them: the word with its options, the reference, the patterns, the number of
//! rows, what each row is, and the name of a row. The texts are in runs (`runs`). An empty line, or one that begins
//! with `//`, is no command.

use std::fmt;

use compare::records::Layout;
use compare::tables::NewRow;
use formats::rows::Flags;
use second::command::{MAX_CANONICAL, MAX_PATTERNS};
use second::name::{DELIMITER, MAX_LEVELS, MAX_NAME};
use second::records::MAX_AREA;
use second::rows::MAX_ROWS;

use crate::inputs::{laid_out, line_of};
use crate::runs::{Runs, NUMBER};

/// The commands that were found by hand, and the ten worst that the search found.
pub const KNOWN: &str = include_str!("../hostile.txt");
pub const WORST: &str = include_str!("../worst.txt");

/// The words with their options; the patterns stand before RETURN.
pub const WORDS: [&str; 7] = [
    "LIST",
    "LIST (SUBSCRIBED)",
    "LIST (REMOTE)",
    "LIST (SUBSCRIBED RECURSIVEMATCH)",
    "LIST RETURN (CHILDREN)",
    "LIST (SUBSCRIBED RECURSIVEMATCH) RETURN (CHILDREN)",
    LSUB,
];
pub const LSUB: &str = "LSUB";

/// What a row is.
pub const KINDS: [(&str, Flags); 3] = [
    ("exists", Flags::EXISTS),
    ("subscribed", Flags::SUBSCRIBED),
    ("both", Flags::EXISTS.with(Flags::SUBSCRIBED)),
];

/// A command line has no more bytes, its CR LF among them.
const MAX_LINE: usize = 2_048;
/// Stands in a shape for the bytes that no name has.
const OTHER: u8 = b'x';

#[derive(Clone, Debug, PartialEq, Eq)]
pub struct Hostile {
    /// One of `WORDS`.
    pub word: &'static str,
    pub reference: Runs,
    pub patterns: Vec<Runs>,
    pub rows: usize,
    /// One of `KINDS`.
    pub kind: (&'static str, Flags),
    pub name: Runs,
}

/// The commands of a file, or the line that is none.
pub fn read_all(text: &str) -> Result<Vec<Hostile>, String> {
    let is_command = |line: &&str| !line.is_empty() && !line.starts_with("//");
    let read = |line: &str| Hostile::read(line).ok_or(format!("no command: {line}"));
    text.lines().filter(is_command).map(read).collect()
}

impl Hostile {
    /// The command of a line; none if it is not written so, or not lawful.
    pub fn read(line: &str) -> Option<Hostile> {
        let fields: Vec<&str> = line.split(';').map(str::trim).collect();
        let [word, reference, patterns, rows, kind, name] = fields[..] else {
            return None;
        };
        let hostile = Hostile {
            word: WORDS.into_iter().find(|known| *known == word)?,
            reference: Runs::read(reference)?,
            patterns: patterns.split(' ').map(Runs::read).collect::<Option<_>>()?,
            rows: rows.parse().ok()?,
            kind: KINDS.into_iter().find(|(known, _)| *known == kind)?,
            name: Runs::read(name)?,
        };
        Some(hostile).filter(Hostile::is_lawful)
    }

    /// Whether neither the table nor the line is refused.
    pub fn is_lawful(&self) -> bool {
        let is_one = self.word != LSUB || self.patterns.len() == 1;
        let canonical = self.canonical_patterns();
        is_one
            && (1..=MAX_PATTERNS).contains(&self.patterns.len())
            && self.patterns.iter().all(|pattern| !pattern.0.is_empty())
            && canonical.iter().all(|pattern| pattern.len() <= MAX_CANONICAL)
            && self.line().len() <= MAX_LINE
            && (1..=most_rows(&self.name)).contains(&self.rows)
    }

    /// The command line with its CR LF.
    pub fn line(&self) -> Vec<u8> {
        line_of(&self.line_text())
    }

    fn line_text(&self) -> String {
        let patterns: Vec<String> = self.patterns.iter().map(Runs::text).collect();
        let (reference, patterns) = (self.reference.text(), patterns.join(" "));
        let (word, returned) = match self.word.split_once(" RETURN ") {
            Some((word, returned)) => (word, format!(" RETURN {returned}")),
            None => (self.word, String::new()),
        };
        match word {
            LSUB => format!("a {word} \"{reference}\" {patterns}"),
            _ => format!("a {word} \"{reference}\" ({patterns}){returned}"),
        }
    }

    pub fn canonical_patterns(&self) -> Vec<Vec<u8>> {
        let canonical = |pattern: &Runs| (self.reference.text() + &pattern.text()).into_bytes();
        self.patterns.iter().map(canonical).collect()
    }

    /// The rows, by their names.
    pub fn table(&self) -> Vec<NewRow> {
        let row = |at| NewRow::new(self.kind.1, self.name.name(at).into_bytes());
        (0..self.rows).map(row).collect()
    }

    /// The rows as records, laid out as those of the other cases.
    pub fn layout(&self) -> Layout {
        laid_out(&self.table(), |_| 1)
    }

    /// The command as a page shows it, its texts in runs and a pattern that is repeated once.
    pub fn shown_line(&self) -> String {
        let mut patterns: Vec<(String, usize)> = Vec::new();
        for pattern in self.patterns.iter().map(Runs::to_string) {
            match patterns.last_mut().filter(|(last, _)| *last == pattern) {
                Some((_, times)) => *times += 1,
                None => patterns.push((pattern, 1)),
            }
        }
        let shown = |(pattern, times): &(String, usize)| match times {
            1 => format!("`{pattern}`"),
            _ => format!("{times} of `{pattern}`"),
        };
        let patterns: Vec<String> = patterns.iter().map(shown).collect();
        let reference = match self.reference.0.is_empty() {
            true => String::new(),
            false => format!(", reference `{}`", self.reference),
        };
        format!("`{}`{reference}, {}", self.word, patterns.join(", "))
    }

    /// Of which shape the command and its table are: which bytes each pattern has, in the order in which they are first
    /// there, those that no name has as one; and which bytes the names have.
    pub fn shape(&self) -> String {
        let mut name = self.name.text().into_bytes();
        name.sort_unstable();
        name.dedup();
        let is_known = |byte: &u8| b"*%".contains(byte) || name.contains(byte);
        let first_bytes = |pattern: &Vec<u8>| {
            let mut seen = Vec::new();
            for &byte in pattern {
                let byte = if is_known(&byte) { byte } else { OTHER };
                if !seen.contains(&byte) {
                    seen.push(byte);
                }
            }
            String::from_utf8_lossy(&seen).into_owned()
        };
        let mut patterns: Vec<String> = self.canonical_patterns().iter().map(first_bytes).collect();
        patterns.sort();
        patterns.dedup();
        let (word, _) = self.word.split_once(" RETURN ").unwrap_or((self.word, ""));
        format!("{word}; {}; {}", patterns.join(" "), String::from_utf8_lossy(&name))
    }
}

/// The most rows that have such names; 0 where a name is not lawful, or does not have the number of its row.
pub fn most_rows(name: &Runs) -> usize {
    let length = name.name_length();
    let text = name.name(0);
    let levels: Vec<&str> = text.split(char::from(DELIMITER)).collect();
    let has_wildcard = text.contains(['%', '*']);
    let has_number = name.0.iter().any(|run| run.unit == NUMBER);
    if has_wildcard
        || !has_number
        || !(1..=MAX_NAME).contains(&length)
        || !(1..=MAX_LEVELS).contains(&levels.len())
        || levels.contains(&"")
    {
        return 0;
    }
    // One byte before each name is no name's.
    MAX_ROWS.min(MAX_AREA / (length + 1))
}

impl fmt::Display for Hostile {
    fn fmt(&self, to: &mut fmt::Formatter) -> fmt::Result {
        let patterns: Vec<String> = self.patterns.iter().map(Runs::to_string).collect();
        let Hostile { word, reference, rows, kind, name, .. } = self;
        write!(to, "{word}; {reference}; {}; {rows}; {}; {name}", patterns.join(" "), kind.0)
    }
}
