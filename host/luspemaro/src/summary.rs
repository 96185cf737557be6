//! The summary beside the records: four counts for each.

use std::fmt;

/// Bits of one count.
const COUNT_BITS: u32 = u16::BITS;

/// How many rows lie strictly below the name of a record, at any depth and whoever sees them, as one number of
/// four counts. A row that exists and is subscribed counts twice. The default is four zeros, as of a spare record
/// that was freed.
///
/// ```
/// use luspemaro::Summary;
///
/// let number = Summary(0x0004_0003_0002_0001);
/// assert_eq!((number.subscribed_local(), number.subscribed_remote()), (1, 2));
/// assert_eq!((number.existing_local(), number.existing_remote()), (3, 4));
/// ```
#[repr(transparent)]
#[derive(Clone, Copy, Default, PartialEq, Eq, Hash)]
pub struct Summary(pub u64);

impl Summary {
    /// Rows that are subscribed and not remote, those that do not exist among them.
    pub const fn subscribed_local(self) -> u16 {
        self.count(0)
    }

    /// Rows that are subscribed and remote.
    pub const fn subscribed_remote(self) -> u16 {
        self.count(1)
    }

    /// Rows that exist and are not remote.
    pub const fn existing_local(self) -> u16 {
        self.count(2)
    }

    /// Rows that exist and are remote.
    pub const fn existing_remote(self) -> u16 {
        self.count(3)
    }

    /// The count of a place, lowest first.
    const fn count(self, place: u32) -> u16 {
        (self.0 >> (place * COUNT_BITS)) as u16
    }
}

/// The four counts by their names.
impl fmt::Debug for Summary {
    fn fmt(&self, formatter: &mut fmt::Formatter) -> fmt::Result {
        let counts = [
            ("subscribed_local", self.subscribed_local()),
            ("subscribed_remote", self.subscribed_remote()),
            ("existing_local", self.existing_local()),
            ("existing_remote", self.existing_remote()),
        ];
        let mut text = formatter.debug_struct("Summary");
        counts.iter().for_each(|(name, count)| _ = text.field(name, count));
        text.finish()
    }
}
