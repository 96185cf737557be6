//! The refusals, as document 01 lists them under 'Numbers of refusal', and those of document 02.

use std::fmt;

/// Why something is refused.
#[derive(Clone, Copy, Debug, PartialEq, Eq, PartialOrd, Ord)]
pub enum Refusal {
    /// Check 1: the table does not pass, or the program has no room for a row.
    Table = 1,
    /// Check 2: the namespace list does not pass, or the program has no room for an entry.
    Namespaces = 2,
    /// The command is too long, does not end with CR LF, holds a byte that no line holds outside
    /// literals, or a literal that is too long, cut short or holds 00.
    LineShape = 3,
    /// The tag, or the rest after a known word, is off the grammar.
    Grammar = 4,
    /// The word is none of LIST, LSUB, NAMESPACE, SUBSCRIBE and UNSUBSCRIBE.
    Word = 5,
    /// An unknown option, an option with a value, or an unlawful option byte.
    UnknownOption = 6,
    /// RECURSIVEMATCH with neither SUBSCRIBED nor SPECIAL-USE beside it.
    RecursiveMatchAlone = 7,
    /// Over 8 patterns, or a canonical pattern over 255 bytes.
    Patterns = 8,
    /// The answer is longer than its buffer.
    AnswerRoom = 9,
    /// A find does not fit.
    FoundRoom = 10,
    /// A pending name does not fit.
    PendingRoom = 11,
    /// Reader: not a LIST line; line writer: not the parts of one.
    Line = 12,
    /// Program only: a bad frame.
    Frame = 13,
    /// SUBSCRIBE: the name is unlawful, or lies below a row with no inferiors.
    UnlawfulName = 14,
    /// SUBSCRIBE: there is no room for the row that would be inserted.
    NoRoom = 15,
    /// The reader is above 7, or an edit comes from another reader than 0.
    Reader = 16,
}

use Refusal::*;

impl Refusal {
    /// All of them, by their numbers.
    pub const ALL: [Refusal; 16] = [
        Table,
        Namespaces,
        LineShape,
        Grammar,
        Word,
        UnknownOption,
        RecursiveMatchAlone,
        Patterns,
        AnswerRoom,
        FoundRoom,
        PendingRoom,
        Line,
        Frame,
        UnlawfulName,
        NoRoom,
        Reader,
    ];

    /// The papers' number, from 1 on.
    pub const fn number(self) -> u8 {
        self as u8
    }

    /// The refusal of a number, or none for a number that the papers do not have.
    pub fn from_number(number: u8) -> Option<Refusal> {
        Refusal::ALL.into_iter().find(|refusal| refusal.number() == number)
    }

    /// What it means, in the words of the papers.
    pub const fn meaning(self) -> &'static str {
        match self {
            Table => "the table does not pass, or no room for a row",
            Namespaces => "the namespace list does not pass, or no room for an entry",
            LineShape => "line shape",
            Grammar => "tag, or the rest after a known word, off the grammar",
            Word => "other word",
            UnknownOption => "unknown option, one with a value, or an unlawful option byte",
            RecursiveMatchAlone => "RECURSIVEMATCH without SUBSCRIBED or SPECIAL-USE",
            Patterns => "over 8 patterns or 255 bytes",
            AnswerRoom => "answer longer than its buffer",
            FoundRoom => "find does not fit",
            PendingRoom => "pending name does not fit",
            Line => "not a LIST line, or not the parts of one",
            Frame => "bad frame",
            UnlawfulName => "unlawful name, or below a row with no inferiors",
            NoRoom => "no room to insert a row",
            Reader => "a reader above 7, or an edit from another reader than 0",
        }
    }
}

/// The number and the meaning.
impl fmt::Display for Refusal {
    fn fmt(&self, formatter: &mut fmt::Formatter) -> fmt::Result {
        write!(formatter, "{}: {}", self.number(), self.meaning())
    }
}
