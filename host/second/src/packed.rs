//! The packed form of a mailbox table: rows without a gap, each with its name.

use crate::fault::ListFault;
use crate::readers::Readers;
use crate::records::Record;
use crate::rows::{check_rows, Flags, Row};

/// Document 01: "At most 512 rows and 32,768 bytes." The bytes are those of the packed form.
pub const MAX_TABLE: usize = 32_768;
/// The bytes of a row before its name: flags, high byte first, readers, and the name length.
pub const ROW_HEAD: usize = 4;

impl Row<'_> {
    /// The bytes of the row, or none for a name longer than its length byte can say.
    pub fn to_bytes(&self) -> Option<Vec<u8>> {
        let length = u8::try_from(self.name.len()).ok()?;
        let head = [self.readers.bits(), length];
        Some([&self.flags.bits().to_be_bytes(), &head[..], self.name].concat())
    }
}

/// The rows of a packed table that passes check 1, or the first row that breaks a rule.
pub(crate) fn checked_rows(table: &[u8]) -> Result<Vec<Row<'_>>, ListFault> {
    let (rows, rest) = split_rows(table);
    let start = |row: usize| rows[..row].iter().map(|row| ROW_HEAD + row.name.len()).sum();
    check_rows(&rows, start)?;
    let rule = if !rest.is_empty() {
        "rows fill the table exactly"
    } else if table.len() > MAX_TABLE {
        "a table has at most 32,768 bytes"
    } else {
        return Ok(rows);
    };
    Err(ListFault { at: table.len() - rest.len(), rule, other: None })
}

/// The row at a place of a packed table.
pub fn row_at(table: &[u8], at: usize) -> Option<Row<'_>> {
    split_row(table.get(at..)?).map(|(row, _)| row)
}

/// The rows of a packed table, not judged any further, and the bytes behind them that are no whole row.
pub fn split_rows(table: &[u8]) -> (Vec<Row<'_>>, &[u8]) {
    let mut rows = Vec::new();
    let mut rest = table;
    while let Some((row, behind)) = split_row(rest) {
        rows.push(row);
        rest = behind;
    }
    (rows, rest)
}

/// "A row is flags (2 bytes, high byte first), name length 1 to 200, name." "A packed row has one byte
/// of readers (bit r for reader r) before the name length." (document 02, W9)
fn split_row(table: &[u8]) -> Option<(Row<'_>, &[u8])> {
    let (&[high, low, readers, length], rest) = table.split_first_chunk::<ROW_HEAD>()?;
    let (name, rest) = rest.split_at_checked(usize::from(length))?;
    let flags = Flags::from_bits(u16::from_be_bytes([high, low]));
    Some((Row { flags, readers: Readers::from_bits(readers), name }, rest))
}

/// The records of a packed table whose rows fill it. The names stay where they lie: the packed bytes
/// are the area, and what stands before each name is unused.
pub fn packed_records(table: &[u8]) -> Option<Vec<Record>> {
    let (rows, rest) = split_rows(table);
    let mut end = 0;
    let record = |row: &Row| {
        let start = end + ROW_HEAD;
        end = start + row.name.len();
        let (flags, readers) = (row.flags.bits(), row.readers.bits());
        Record { flags, start: start as u16, len: row.name.len() as u8, readers }
    };
    let has_records = rest.is_empty() && table.len() <= MAX_TABLE;
    has_records.then(|| rows.iter().map(record).collect())
}
