//! SUBSCRIBE and UNSUBSCRIBE (document 02, W6): what an edit is refused for, and what it leaves. "all
//! edits look at all rows" (W9), and the readers of a row stay.

use std::collections::BTreeMap;

use crate::command::{Edit, EditRequest};
use crate::fault::{EditFault, LineFault};
use crate::name;
use crate::readers::Readers;
use crate::records::{Record, Records, RecordsMut};
use crate::refusal::Refusal;
use crate::rows::{Flags, Row, MAX_ROWS};
use crate::store::Store;
use crate::summary::counted_afresh;
use crate::table::Table;

/// What an accepted edit leaves, decided before anything is changed.
pub struct Edited {
    /// The records of the rows, ascending by name.
    rows: Vec<Record>,
    /// The bytes of the area that change, and the place of the first of them.
    bytes: Vec<u8>,
    place: usize,
    /// Whether a row changes, comes or goes.
    pub changed: bool,
}

/// Judges an edit of a table that passes, on its records. Of a packed table they are those of its
/// rows, over its own bytes, and none is spare.
pub fn edited(table: Table, request: &EditRequest) -> Result<Edited, EditFault> {
    let name = name::spelled(&request.name);
    let result = match table {
        Table::Records(records) | Table::Counted(records) => {
            edited_rows(records, request.edit, &name)
        }
        Table::Packed(area) => {
            let store = Store::of_packed(area).unwrap_or_else(|| Store::of_rows(&[]));
            edited_rows(store.as_records(), request.edit, &name)
        }
    };
    result.map_err(|denied| denied.at(request.name_at))
}

impl Edited {
    /// "A freed record and freed name bytes become zero; other spare records and unused bytes
    /// stay." The summary then is what counting afresh gives (W13); a freed number becomes zero, and the others stay.
    pub fn store(self, table: &mut RecordsMut) {
        let Edited { rows, bytes, place, .. } = self;
        table.area[place..place + bytes.len()].copy_from_slice(&bytes);
        let named: Vec<Row> = rows.iter().map(|record| record.row_in(table.area)).collect();
        put_over(table.summary, table.count, &counted_afresh(&named));
        put_over(table.records, table.count, &rows);
        table.count = rows.len();
    }
}

/// Puts the values of the rows that are left over those of so many rows; what is freed becomes zero.
fn put_over<T: Copy + Default>(values: &mut [T], count: usize, left: &[T]) {
    let freed = count.saturating_sub(left.len());
    let (held, after) = values.split_at_mut(left.len());
    held.copy_from_slice(left);
    after[..freed].fill(T::default());
}

/// The rows of a table, by name.
type ByName<'t> = BTreeMap<&'t [u8], Record>;

/// Why an edit is refused.
struct Denied {
    refusal: Refusal,
    rule: &'static str,
    /// The number of the row below which the name would lie.
    above: Option<usize>,
}

impl Denied {
    fn at(self, at: usize) -> EditFault {
        let Denied { refusal, rule, above } = self;
        EditFault { name: LineFault { refusal, at, rule }, above }
    }
}

fn edited_rows(table: Records, edit: Edit, name: &[u8]) -> Result<Edited, Denied> {
    let named = |record: &Record| (&table.area[record.place()], *record);
    let mut rows: ByName = table.records[..table.count].iter().map(named).collect();
    let (mut bytes, mut place) = (Vec::new(), 0);
    match (edit, rows.get_mut(name)) {
        (Edit::Subscribe, Some(row)) => row.flags |= Flags::SUBSCRIBED.bits(),
        (Edit::Subscribe, None) => {
            check_name(&rows, name)?;
            place = place_for(table, name.len()).map_err(no_room)?;
            bytes = name.to_vec();
            let (flags, readers) = (Flags::SUBSCRIBED.bits(), Readers::ALL.bits());
            let (start, len) = (place as u16, name.len() as u8);
            rows.insert(name, Record { flags, start, len, readers });
        }
        // "removes a row 0002 entirely"
        (Edit::Unsubscribe, Some(row)) if row.flags == Flags::SUBSCRIBED.bits() => {
            (bytes, place) = (vec![0; name.len()], row.place().start);
            rows.remove(name);
        }
        (Edit::Unsubscribe, Some(row)) => row.flags &= !Flags::SUBSCRIBED.bits(),
        // "is OK for a name with no subscription"
        (Edit::Unsubscribe, None) => {}
    }
    let rows: Vec<Record> = rows.into_values().collect();
    let changed = rows != table.records[..table.count];
    Ok(Edited { rows, bytes, place, changed })
}

/// "below a row with no inferiors, or with an unlawful name, it is refused with 14"
fn check_name(rows: &ByName, name: &[u8]) -> Result<(), Denied> {
    let unlawful = |rule, above| Denied { refusal: Refusal::UnlawfulName, rule, above };
    if let Some(rule) = name::broken_rule(name) {
        return Err(unlawful(rule, None));
    }
    let takes_none = |row: &Record| Flags::from_bits(row.flags).has(Flags::NO_INFERIORS);
    let childless = name::ancestors(name).find(|above| rows.get(above).is_some_and(takes_none));
    match childless {
        None => Ok(()),
        Some(above) => {
            let number = rows.range(..above).count();
            Err(unlawful("no name lies below a row with no inferiors", Some(number)))
        }
    }
}

/// "an insertion with 512 rows, no spare record or no free run of name bytes long enough, with 15;
/// it takes the lowest such run": its start, or the rule that is broken.
fn place_for(table: Records, length: usize) -> Result<usize, &'static str> {
    if table.count >= MAX_ROWS {
        return Err("a row is inserted where there are under 512");
    }
    if table.count >= table.lent() {
        return Err("a row is inserted where a record is spare");
    }
    let mut names: Vec<_> = table.records[..table.count].iter().map(|row| row.place()).collect();
    names.sort_unstable_by_key(|name| name.start);
    // What lies between the end of a name, or of none, and the next one is a free run.
    let mut free = 0;
    for name in names {
        if name.start - free >= length {
            return Ok(free);
        }
        free = name.end;
    }
    let fits = table.area.len() - free >= length;
    fits.then_some(free).ok_or("a row is inserted where a free run of name bytes is long enough")
}

fn no_room(rule: &'static str) -> Denied {
    Denied { refusal: Refusal::NoRoom, rule, above: None }
}
