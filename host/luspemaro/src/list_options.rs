//! The options of a LIST command that is joined.

use std::ops::BitOr;

/// A set of selection options and return options, with named members that are put together by `|`.
///
/// ```
/// use luspemaro::ListOptions;
///
/// let options = ListOptions::SELECT_SUBSCRIBED | ListOptions::RETURN_CHILDREN;
/// assert_eq!(options.bits(), 0x21);
/// assert!(options.has(ListOptions::SELECT_SUBSCRIBED) && !options.has(ListOptions::SELECT_REMOTE));
/// ```
#[derive(Clone, Copy, Debug, Default, PartialEq, Eq, Hash)]
pub struct ListOptions(u8);

impl ListOptions {
    /// No option.
    pub const NONE: ListOptions = ListOptions(0);
    /// Of the selection, SUBSCRIBED.
    pub const SELECT_SUBSCRIBED: ListOptions = ListOptions(0x01);
    /// Of the selection, REMOTE.
    pub const SELECT_REMOTE: ListOptions = ListOptions(0x02);
    /// Of the selection, RECURSIVEMATCH. With neither SUBSCRIBED nor SPECIAL-USE beside it a command is
    /// refused with 7.
    pub const SELECT_RECURSIVEMATCH: ListOptions = ListOptions(0x04);
    /// Of the selection, SPECIAL-USE.
    pub const SELECT_SPECIAL_USE: ListOptions = ListOptions(0x08);
    /// RETURN (SUBSCRIBED).
    pub const RETURN_SUBSCRIBED: ListOptions = ListOptions(0x10);
    /// RETURN (CHILDREN).
    pub const RETURN_CHILDREN: ListOptions = ListOptions(0x20);
    /// RETURN (SPECIAL-USE).
    pub const RETURN_SPECIAL_USE: ListOptions = ListOptions(0x40);
    /// All seven.
    pub const ALL: ListOptions = ListOptions(0x7F);

    /// The set of some bits, or none where a bit stands for no option.
    ///
    /// ```
    /// use luspemaro::ListOptions;
    ///
    /// assert_eq!(ListOptions::from_bits(0x02), Some(ListOptions::SELECT_REMOTE));
    /// assert_eq!(ListOptions::from_bits(0x80), None);
    /// ```
    pub const fn from_bits(bits: u8) -> Option<ListOptions> {
        if bits <= ListOptions::ALL.0 {
            Some(ListOptions(bits))
        } else {
            None
        }
    }

    /// Its number, as `luspemaro_join` takes it.
    ///
    /// ```
    /// assert_eq!(luspemaro::ListOptions::RETURN_SPECIAL_USE.bits(), 0x40);
    /// ```
    pub const fn bits(self) -> u8 {
        self.0
    }

    /// Whether all members of another set are in it.
    ///
    /// ```
    /// use luspemaro::ListOptions;
    ///
    /// assert!(ListOptions::ALL.has(ListOptions::RETURN_CHILDREN));
    /// assert!(!ListOptions::RETURN_CHILDREN.has(ListOptions::ALL));
    /// ```
    pub const fn has(self, wanted: ListOptions) -> bool {
        self.0 & wanted.0 == wanted.0
    }
}

impl BitOr for ListOptions {
    type Output = ListOptions;

    fn bitor(self, other: ListOptions) -> ListOptions {
        ListOptions(self.0 | other.0)
    }
}
