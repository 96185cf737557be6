//! LIST lines and their parts.

use crate::raw::{self, NAME_ROOM};
use crate::refusal::Refusal;

/// The criteria that CHILDINFO names, a set with named members; the empty set is a line without
/// CHILDINFO.
#[derive(Clone, Copy, Debug, Default, PartialEq, Eq)]
pub struct Criteria(u8);

impl Criteria {
    /// A line without CHILDINFO.
    pub const NONE: Criteria = Criteria(0);
    /// SUBSCRIBED alone.
    pub const SUBSCRIBED: Criteria = Criteria(1);
    /// SPECIAL-USE alone.
    pub const SPECIAL_USE: Criteria = Criteria(2);
    /// Both.
    pub const BOTH: Criteria = Criteria(3);

    /// The set of some bits, or none where a bit stands for no criterion.
    ///
    /// ```
    /// use luspemaro::Criteria;
    ///
    /// assert_eq!(Criteria::from_bits(3), Some(Criteria::BOTH));
    /// assert_eq!(Criteria::from_bits(4), None);
    /// ```
    pub const fn from_bits(bits: u8) -> Option<Criteria> {
        if bits <= Criteria::BOTH.0 {
            Some(Criteria(bits))
        } else {
            None
        }
    }

    /// SUBSCRIBED is bit 0, SPECIAL-USE bit 1.
    ///
    /// ```
    /// assert_eq!(luspemaro::Criteria::SPECIAL_USE.bits(), 2);
    /// ```
    pub const fn bits(self) -> u8 {
        self.0
    }
}

/// The parts of a LIST line.
#[derive(Clone, Debug, PartialEq, Eq)]
pub struct Line {
    /// Bit k is the k-th of the sixteen attributes, `\Marked` bit 0.
    pub attributes: u16,
    /// What CHILDINFO names.
    pub childinfo: Criteria,
    length: usize,
    area: [u8; NAME_ROOM],
}

impl Line {
    /// The name, unquoted. It is empty on the root line alone.
    ///
    /// ```
    /// let line = luspemaro::read_line(b"* LIST () \"/\" \"a\\\\b\"\r\n")?;
    /// assert_eq!(line.name(), b"a\\b");
    /// # Ok::<(), luspemaro::Refusal>(())
    /// ```
    pub fn name(&self) -> &[u8] {
        &self.area[..self.length]
    }

    /// The name in 200 bytes, zero after it.
    ///
    /// ```
    /// let line = luspemaro::read_line(b"* LIST () \"/\" \"Foo\"\r\n")?;
    /// assert_eq!(line.area()[..4], *b"Foo\0");
    /// # Ok::<(), luspemaro::Refusal>(())
    /// ```
    pub fn area(&self) -> &[u8; NAME_ROOM] {
        &self.area
    }
}

/// The line writer: writes a LIST line at the front of `out`, and gives its length.
///
/// ```
/// use luspemaro::{write_line, Criteria, Refusal};
///
/// let mut out = [0; 100];
/// let length = write_line(1, b"Foo", Criteria::NONE, &mut out)?;
/// assert_eq!(&out[..length], b"* LIST (\\Marked) \"/\" \"Foo\"\r\n");
/// assert_eq!(write_line(1, b"Foo", Criteria::NONE, &mut out[..9]), Err(Refusal::ShortBuffer));
/// # Ok::<(), Refusal>(())
/// ```
pub fn write_line(
    attributes: u16,
    name: &[u8],
    childinfo: Criteria,
    out: &mut [u8],
) -> Result<usize, Refusal> {
    raw::write_line(attributes, name, childinfo.bits(), out).written()
}

/// The line writer from the number of a set of criteria: one with another bit than the two is
/// refused with 12, first.
///
/// ```
/// use luspemaro::{write_parts, Refusal};
///
/// let mut out = [0; 100];
/// let length = write_parts(0, b"Foo", 2, &mut out)?;
/// assert_eq!(&out[..length], b"* LIST () \"/\" \"Foo\" (\"CHILDINFO\" (\"SPECIAL-USE\"))\r\n");
/// assert_eq!(write_parts(0, b"Foo", 4, &mut out), Err(Refusal::NotSuchLine));
/// # Ok::<(), Refusal>(())
/// ```
pub fn write_parts(
    attributes: u16,
    name: &[u8],
    criteria: u8,
    out: &mut [u8],
) -> Result<usize, Refusal> {
    raw::write_line(attributes, name, criteria, out).written()
}

/// The line reader: the parts of one LIST line with its CR LF.
///
/// ```
/// use luspemaro::{read_line, Criteria, Refusal};
///
/// let line = read_line(b"* LIST (\\Noselect) \"/\" \"Foo\"\r\n")?;
/// assert_eq!((line.attributes, line.name(), line.childinfo), (4, &b"Foo"[..], Criteria::NONE));
/// assert_eq!(read_line(b"* LSUB () \"/\" \"Foo\"\r\n"), Err(Refusal::NotSuchLine));
/// # Ok::<(), Refusal>(())
/// ```
pub fn read_line(line: &[u8]) -> Result<Line, Refusal> {
    let parts = raw::read_line(line);
    if let Err(refusal) = Refusal::check(parts.number) {
        let is_empty = (parts.attributes, parts.length, parts.criteria) == (0, 0, 0);
        assert!(is_empty && parts.name == [0; NAME_ROOM], "a refusal with parts of a line");
        return Err(refusal);
    }
    let childinfo = Criteria::from_bits(parts.criteria).expect("at most two criteria");
    let (attributes, length, area) = (parts.attributes, parts.length, parts.name);
    Ok(Line { attributes, childinfo, length, area })
}
