//! The records that the program keeps from the first accepted edit on (document 02, W6, W9 and W13).

use crate::packed::packed_records;
use crate::records::{Record, Records, RecordsMut};
use crate::rows::{Row, MAX_ROWS};
use crate::summary::{counted_afresh, Summary};

/// "The program keeps 512 records, names at first in row order without gaps from the start of
/// 16,384 bytes".
pub const STORE_RECORDS: usize = MAX_ROWS;
pub const STORE_AREA: usize = 16_384;

/// Records, an area and a summary of their own.
#[derive(Clone, Debug, PartialEq, Eq)]
pub struct Store {
    pub records: Vec<Record>,
    /// How many of the records are rows.
    pub count: usize,
    pub area: Vec<u8>,
    pub summary: Vec<Summary>,
}

impl Store {
    /// The store of the program. Spare records and unused bytes are zero. The rows are those of a
    /// packed table that passes and had room, so they are at most 512 and their names fit.
    pub fn of_rows(rows: &[Row]) -> Store {
        let (mut records, mut area) = (Vec::new(), Vec::new());
        for Row { flags, readers, name } in rows {
            let (start, len) = (area.len() as u16, name.len() as u8);
            records.push(Record { flags: flags.bits(), start, len, readers: readers.bits() });
            area.extend_from_slice(name);
        }
        records.resize(STORE_RECORDS, Record::default());
        area.resize(STORE_AREA, 0);
        let mut summary = counted_afresh(rows);
        summary.resize(STORE_RECORDS, Summary::default());
        Store { records, count: rows.len(), area, summary }
    }

    /// The records of a packed table whose rows fill it, over its own bytes; none of them is spare.
    pub fn of_packed(table: &[u8]) -> Option<Store> {
        let records = packed_records(table)?;
        let count = records.len();
        Some(Store::counted(records, count, table.to_vec()))
    }

    /// Records over an area with a summary that is counted first: a number for each record, zero for a spare one.
    pub fn counted(records: Vec<Record>, count: usize, area: Vec<u8>) -> Store {
        let summary = vec![Summary::default(); records.len()];
        let mut store = Store { records, count, area, summary };
        store.recount();
        store
    }

    /// Counts the numbers of the rows afresh, also of rows that do not pass, as far as their names lie in the area
    /// and there are numbers: so what does not pass does so for another reason than its summary.
    pub fn recount(&mut self) {
        let Store { records, count, area, summary } = self;
        let rows: Vec<Row> =
            records.iter().take(*count).map(|record| record.row_in(area)).collect();
        if rows.len() <= MAX_ROWS {
            summary
                .iter_mut()
                .zip(counted_afresh(&rows))
                .for_each(|(kept, counted)| *kept = counted);
        }
    }

    pub fn as_records(&self) -> Records<'_> {
        let Store { records, count, area, summary } = self;
        Records { records, count: *count, area, summary }
    }

    /// Lends the records, the area and the summary for a call that may edit them, and takes the count back.
    pub fn lend<T>(&mut self, call: impl FnOnce(&mut RecordsMut) -> T) -> T {
        let Store { records, count, area, summary } = self;
        let mut lent = RecordsMut { records, count: *count, area, summary };
        let given = call(&mut lent);
        *count = lent.count;
        given
    }
}
