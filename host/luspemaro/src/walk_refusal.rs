//! The refusals of the walk.

use std::error::Error;
use std::fmt;

use crate::refusal::Refusal;

/// Why a walk is refused: one of six, and nothing else (document 02, W12).
///
/// ```
/// use luspemaro::{Refusal, WalkRefusal};
///
/// let numbers = WalkRefusal::ALL.map(WalkRefusal::number);
/// assert_eq!(numbers, [1, 6, 9, 10, 11, 16]);
/// assert_eq!(Refusal::from(WalkRefusal::FoundFull), Refusal::FoundFull);
/// ```
#[derive(Clone, Copy, Debug, PartialEq, Eq, PartialOrd, Ord, Hash)]
#[repr(u8)]
pub enum WalkRefusal {
    /// The mailbox table or its summary does not pass, or count is above the records lent.
    Table = Refusal::Table.number(),
    /// The option byte is not lawful.
    UnknownOption = Refusal::UnknownOption.number(),
    /// An answer to one of its own commands is longer than scratch.
    ShortBuffer = Refusal::ShortBuffer.number(),
    /// A find does not fit.
    FoundFull = Refusal::FoundFull.number(),
    /// A pending name does not fit.
    PendingFull = Refusal::PendingFull.number(),
    /// The reader is above 7.
    Reader = Refusal::Reader.number(),
}

impl WalkRefusal {
    /// All of them, by their numbers.
    pub const ALL: [WalkRefusal; 6] = [
        WalkRefusal::Table,
        WalkRefusal::UnknownOption,
        WalkRefusal::ShortBuffer,
        WalkRefusal::FoundFull,
        WalkRefusal::PendingFull,
        WalkRefusal::Reader,
    ];

    /// The papers' number.
    pub const fn number(self) -> u8 {
        self as u8
    }

    /// The refusal of a number, or none where no walk gives it.
    ///
    /// ```
    /// use luspemaro::WalkRefusal;
    ///
    /// assert_eq!(WalkRefusal::from_number(9), Some(WalkRefusal::ShortBuffer));
    /// assert_eq!(WalkRefusal::from_number(4), None);
    /// ```
    pub fn from_number(number: u8) -> Option<WalkRefusal> {
        WalkRefusal::ALL.into_iter().find(|refusal| refusal.number() == number)
    }
}

impl From<WalkRefusal> for Refusal {
    fn from(refusal: WalkRefusal) -> Refusal {
        match refusal {
            WalkRefusal::Table => Refusal::Table,
            WalkRefusal::UnknownOption => Refusal::UnknownOption,
            WalkRefusal::ShortBuffer => Refusal::ShortBuffer,
            WalkRefusal::FoundFull => Refusal::FoundFull,
            WalkRefusal::PendingFull => Refusal::PendingFull,
            WalkRefusal::Reader => Refusal::Reader,
        }
    }
}

/// The number and the meaning, as of the general refusal.
impl fmt::Display for WalkRefusal {
    fn fmt(&self, formatter: &mut fmt::Formatter) -> fmt::Result {
        Refusal::from(*self).fmt(formatter)
    }
}

impl Error for WalkRefusal {}
