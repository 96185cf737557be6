//! The refusals of the entries.

use std::error::Error;
use std::fmt;

/// Each refusal once: its name, its number and its meaning, in the words of `include/luspemaro.h`.
macro_rules! refusals {
    ($($name:ident = $number:literal, $meaning:literal;)*) => {
        /// Why a call is refused, by the papers' numbers. 13, a bad frame, stops a replay and is no refusal of a
        /// call: [`Verdict::Refused`](crate::Verdict::Refused). Of several causes the first in the entry's order is
        /// told.
        #[derive(Clone, Copy, Debug, PartialEq, Eq, PartialOrd, Ord, Hash)]
        #[repr(u8)]
        pub enum Refusal {
            $(#[doc = $meaning] $name = $number,)*
        }

        impl Refusal {
            /// All of them, by their numbers.
            pub const ALL: [Refusal; [$($number),*].len()] = [$(Refusal::$name),*];

            /// What it means.
            ///
            /// ```
            /// assert_eq!(luspemaro::Refusal::FoundFull.meaning(), "a find does not fit");
            /// ```
            pub const fn meaning(self) -> &'static str {
                match self {
                    $(Refusal::$name => $meaning,)*
                }
            }
        }
    };
}

refusals! {
    Table = 1, "the mailbox table or its summary does not pass, or count is above the records lent";
    Namespaces = 2, "the namespace list does not pass";
    LineShape = 3, "too long, no CR LF at its end, a byte that no line has, a literal cut short or too long";
    Grammar = 4, "the tag, or the rest after a known word, is off the grammar";
    Word = 5, "the word is none of LIST, LSUB, NAMESPACE, SUBSCRIBE, UNSUBSCRIBE";
    UnknownOption = 6, "an unknown option, one with a value, or an unlawful option byte";
    RecursiveMatchAlone = 7, "RECURSIVEMATCH with neither SUBSCRIBED nor SPECIAL-USE beside it";
    Patterns = 8, "over 8 patterns, or a canonical pattern of over 255 bytes";
    ShortBuffer = 9, "the answer, or the line, is longer than its buffer";
    FoundFull = 10, "a find does not fit";
    PendingFull = 11, "a pending name does not fit";
    NotSuchLine = 12, "not a LIST line, or not the parts of one";
    UnlawfulName = 14, "SUBSCRIBE: an unlawful name, or one below a row with no inferiors";
    NoRoom = 15, "SUBSCRIBE would insert a row: 512 rows, no spare record, or no free run long enough";
    Reader = 16, "the reader is above 7, or an edit comes from another reader than 0";
}

impl Refusal {
    /// The papers' number.
    ///
    /// ```
    /// assert_eq!(luspemaro::Refusal::NoRoom.number(), 15);
    /// ```
    pub const fn number(self) -> u8 {
        self as u8
    }

    /// The refusal of a number, or none where no call is refused with it.
    ///
    /// ```
    /// use luspemaro::Refusal;
    ///
    /// assert_eq!(Refusal::from_number(9), Some(Refusal::ShortBuffer));
    /// assert_eq!(Refusal::from_number(13), None);
    /// ```
    pub fn from_number(number: u8) -> Option<Refusal> {
        Refusal::ALL.into_iter().find(|refusal| refusal.number() == number)
    }

    /// What an entry says by a number: 0 is no refusal.
    pub(crate) fn check(number: u8) -> Result<(), Refusal> {
        let refusal = Refusal::from_number(number);
        assert!(number == 0 || refusal.is_some(), "the archive gives the number {number}");
        refusal.map_or(Ok(()), Err)
    }
}

/// The number and the meaning.
impl fmt::Display for Refusal {
    fn fmt(&self, formatter: &mut fmt::Formatter) -> fmt::Result {
        write!(formatter, "{}: {}", self.number(), self.meaning())
    }
}

impl Error for Refusal {}
