//! Who may see which mailbox (document 02, W9): readers, and sets of them.

use crate::fault::Fault;

/// "each command comes from reader 0 to 7"
pub const MAX_READER: u8 = 7;

/// One of the eight readers.
#[derive(Clone, Copy, Debug, PartialEq, Eq)]
pub struct Reader(u8);

impl Reader {
    /// "edits are allowed to reader 0 only"
    pub const EDITOR: Reader = Reader(0);

    /// The reader of a number: "above: 16, checked before 1".
    pub fn checked(number: u8) -> Result<Reader, Fault> {
        if number > MAX_READER {
            return Err(Fault::Reader("a reader is 0 to 7"));
        }
        Ok(Reader(number))
    }

    /// All eight, by their numbers.
    pub fn all() -> impl Iterator<Item = Reader> {
        (0..=MAX_READER).map(Reader)
    }

    pub const fn number(self) -> u8 {
        self.0
    }
}

/// "a set of eight readers", "bit r for reader r". Any byte is one.
#[derive(Clone, Copy, Debug, PartialEq, Eq)]
pub struct Readers(u8);

impl Readers {
    /// Nobody sees such a row.
    pub const NONE: Readers = Readers(0);
    /// "An inserted row is seen by all eight."
    pub const ALL: Readers = Readers(0xFF);

    pub const fn from_bits(bits: u8) -> Readers {
        Readers(bits)
    }

    pub const fn bits(self) -> u8 {
        self.0
    }

    pub const fn has(self, reader: Reader) -> bool {
        self.0 >> reader.0 & 1 == 1
    }

    pub fn add(&mut self, reader: Reader) {
        self.0 |= 1 << reader.0;
    }

    pub fn remove(&mut self, reader: Reader) {
        self.0 &= !(1 << reader.0);
    }
}
