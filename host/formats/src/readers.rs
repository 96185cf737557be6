//! Who may see which mailbox (document 02, W9): readers, and sets of them.

/// "each command comes from reader 0 to 7"
pub const MAX_READER: u8 = 7;

/// One of the eight readers.
#[derive(Clone, Copy, Debug, PartialEq, Eq)]
pub struct Reader(u8);

impl Reader {
    /// "edits are allowed to reader 0 only"
    pub const EDITOR: Reader = Reader(0);

    /// The reader of a number; none for a number above 7.
    pub fn of(number: u8) -> Option<Reader> {
        (number <= MAX_READER).then_some(Reader(number))
    }

    /// All eight, by their numbers.
    pub fn all() -> impl Iterator<Item = Reader> {
        (0..=MAX_READER).map(Reader)
    }

    pub const fn number(self) -> u8 {
        self.0
    }
}

/// A set of readers: bit r is reader r. Any byte is one.
#[derive(Clone, Copy, Debug, PartialEq, Eq)]
pub struct Readers(u8);

impl Readers {
    /// Nobody sees such a row.
    pub const NONE: Readers = Readers(0);
    pub const ALL: Readers = Readers(0xFF);

    pub const fn from_bits(bits: u8) -> Readers {
        Readers(bits)
    }

    pub const fn bits(self) -> u8 {
        self.0
    }

    pub const fn has(self, reader: Reader) -> bool {
        self.0 & 1 << reader.0 != 0
    }

    pub fn add(&mut self, reader: Reader) {
        self.0 |= 1 << reader.0;
    }

    pub fn remove(&mut self, reader: Reader) {
        self.0 &= !(1 << reader.0);
    }
}
