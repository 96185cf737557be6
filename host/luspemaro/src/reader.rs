//! Readers, from whom commands and walks come.

/// A reader, 0 to 7. A row is seen by those in its record's set; one that is hidden from a reader counts
/// as absent for its commands and walks.
#[derive(Clone, Copy, Debug, PartialEq, Eq, PartialOrd, Ord, Hash)]
pub struct Reader(u8);

impl Reader {
    /// Reader 0, the only one to whom SUBSCRIBE and UNSUBSCRIBE are allowed.
    pub const EDITOR: Reader = Reader(0);
    /// The highest number of a reader.
    pub const MAX: u8 = 7;

    /// The reader of a number, or none for a number above 7.
    ///
    /// ```
    /// use luspemaro::Reader;
    ///
    /// assert_eq!(Reader::new(0), Some(Reader::EDITOR));
    /// assert_eq!(Reader::new(8), None);
    /// ```
    pub const fn new(number: u8) -> Option<Reader> {
        if number <= Reader::MAX {
            Some(Reader(number))
        } else {
            None
        }
    }

    /// Its number.
    ///
    /// ```
    /// assert_eq!(luspemaro::Reader::EDITOR.number(), 0);
    /// ```
    pub const fn number(self) -> u8 {
        self.0
    }

    /// The set of this reader alone, to be put together with others by `|`.
    ///
    /// ```
    /// use luspemaro::{Reader, Record};
    ///
    /// let [zero, three] = [0, 3].map(|number| Reader::new(number).expect("a reader"));
    /// let readers = zero.bit() | three.bit();
    /// assert_eq!(readers, 0b1001);
    /// assert_eq!(readers & three.bit(), three.bit());
    /// ```
    pub const fn bit(self) -> u8 {
        1 << self.0
    }
}
