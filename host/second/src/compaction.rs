//! Names moved together (document 02, W7).

use crate::records::{Record, RecordsMut};
use crate::refusal::Refusal;
use crate::table::{check_table, Table};

/// "moves names together, in the order of their starts, so that free bytes form one run of zeros at
/// the end"; "a table that does not pass is 1, unchanged".
///
/// Of the records those of the rows change, in their starts alone.
pub fn compact(table: &mut RecordsMut) -> Result<(), Refusal> {
    if !check_table(Table::Records(table.as_records())) {
        return Err(Refusal::Table);
    }
    let mut rows: Vec<&mut Record> = table.records[..table.count].iter_mut().collect();
    rows.sort_unstable_by_key(|row| row.start);
    let mut names = Vec::with_capacity(table.area.len());
    for row in rows {
        let place = row.place();
        row.start = names.len() as u16;
        names.extend_from_slice(&table.area[place]);
    }
    names.resize(table.area.len(), 0);
    table.area.copy_from_slice(&names);
    Ok(())
}
