//! Rows of a mailbox table: their flags, and the packed form, in which rows stand without a gap, each with its name.

use crate::readers::Readers;

/// Document 01: "At most 512 rows and 32,768 bytes." The bytes are those of the packed form.
pub const MAX_ROWS: usize = 512;
pub const MAX_TABLE: usize = 32_768;
/// The bytes of a row before its name: flags, high byte first, readers, and the name length.
pub const ROW_HEAD: usize = 4;

/// The flags of a row, a set with named members.
#[derive(Clone, Copy, Debug, PartialEq, Eq)]
pub struct Flags(u16);

impl Flags {
    /// No member: those of a name that has no row.
    pub const IMPLIED: Flags = Flags(0);
    pub const EXISTS: Flags = Flags(1 << 0);
    pub const SUBSCRIBED: Flags = Flags(1 << 1);
    pub const REMOTE: Flags = Flags(1 << 2);
    pub const NO_SELECT: Flags = Flags(1 << 3);
    pub const NO_INFERIORS: Flags = Flags(1 << 4);
    pub const MARKED: Flags = Flags(1 << 5);
    pub const UNMARKED: Flags = Flags(1 << 6);
    pub const ALL: Flags = Flags(1 << 8);
    pub const ARCHIVE: Flags = Flags(1 << 9);
    pub const DRAFTS: Flags = Flags(1 << 10);
    pub const FLAGGED: Flags = Flags(1 << 11);
    pub const JUNK: Flags = Flags(1 << 12);
    pub const SENT: Flags = Flags(1 << 13);
    pub const TRASH: Flags = Flags(1 << 14);
    /// The special uses, bits 8 to 14.
    pub const USES: Flags = Flags(0x7F00);

    /// The members, each with a word for it, in the order of their bits.
    pub const NAMED: [(&'static str, Flags); 14] = [
        ("exists", Flags::EXISTS),
        ("subscribed", Flags::SUBSCRIBED),
        ("remote", Flags::REMOTE),
        ("noselect", Flags::NO_SELECT),
        ("noinferiors", Flags::NO_INFERIORS),
        ("marked", Flags::MARKED),
        ("unmarked", Flags::UNMARKED),
        ("all", Flags::ALL),
        ("archive", Flags::ARCHIVE),
        ("drafts", Flags::DRAFTS),
        ("flagged", Flags::FLAGGED),
        ("junk", Flags::JUNK),
        ("sent", Flags::SENT),
        ("trash", Flags::TRASH),
    ];

    pub const fn from_bits(bits: u16) -> Flags {
        Flags(bits)
    }

    pub const fn bits(self) -> u16 {
        self.0
    }

    /// Whether some member of `wanted` is in the set.
    pub const fn has(self, wanted: Flags) -> bool {
        self.0 & wanted.0 != 0
    }

    /// The members of both sets.
    pub const fn with(self, added: Flags) -> Flags {
        Flags(self.0 | added.0)
    }

    pub fn add(&mut self, added: Flags) {
        *self = self.with(added);
    }

    pub fn remove(&mut self, removed: Flags) {
        self.0 &= !removed.0;
    }
}

/// One row of a table.
#[derive(Clone, Copy, Debug, PartialEq, Eq)]
pub struct Row<'t> {
    pub flags: Flags,
    /// Who sees the row.
    pub readers: Readers,
    pub name: &'t [u8],
}

impl Row<'_> {
    /// The row in its packed form; none for a name that is longer than its length byte can say.
    pub fn to_bytes(&self) -> Option<Vec<u8>> {
        let mut bytes = self.flags.bits().to_be_bytes().to_vec();
        bytes.push(self.readers.bits());
        bytes.push(u8::try_from(self.name.len()).ok()?);
        bytes.extend_from_slice(self.name);
        Some(bytes)
    }
}

/// The rows of a packed table, not judged any further, and the bytes after them that are no whole row.
pub fn split_rows(table: &[u8]) -> (Vec<Row<'_>>, &[u8]) {
    let (mut rows, mut rest) = (Vec::new(), table);
    while let [high, low, readers, length, after @ ..] = rest {
        let Some((name, after)) = after.split_at_checked(usize::from(*length)) else {
            break;
        };
        let flags = Flags::from_bits(u16::from_be_bytes([*high, *low]));
        rows.push(Row { flags, readers: Readers::from_bits(*readers), name });
        rest = after;
    }
    (rows, rest)
}
