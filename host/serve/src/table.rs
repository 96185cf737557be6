//! The table that is served, as the library is lent it, and one command over it.

use std::error::Error;
use std::fmt;

use formats::frames::Frame;
use formats::namespaces::split_entries;
use formats::readers::Readers;
use formats::rows::{split_rows, Flags, Row};
use formats::sizes::PROGRAM_TABLE;
use luspemaro::{
    answer, check_namespaces, check_records, check_table, compact, summarize, Answered, Reader,
    Record, Records, RecordsMut, Refusal, Summary,
};

use crate::rooms::{Rooms, MAX_ROWS};
use crate::second_program::{namespaces_fault, table_fault};

/// A table that passes both checks, and what it is lent.
#[derive(Clone, Debug, PartialEq, Eq)]
pub struct Table {
    records: Vec<Record>,
    count: usize,
    area: Vec<u8>,
    /// A number for each record, counted at first and kept up to date by the library.
    summary: Vec<Summary>,
    namespaces: Vec<u8>,
    rooms: Rooms,
}

/// Why there is no table.
#[derive(Debug, PartialEq, Eq)]
pub enum TableError {
    /// The library refuses it with 1 or 2. The text is the second program's, which is not proved.
    Refused(Refusal, String),
    /// It passes, but has more bytes than these rooms.
    NoRoom(&'static str),
}

impl Table {
    /// The table of packed rows and a namespace list: 512 records, names in row order without gaps from
    /// the start of the area, all else zero.
    pub fn new(rows: &[u8], namespaces: &[u8], rooms: Rooms) -> Result<Table, TableError> {
        if !check_table(rows) {
            return Err(TableError::Refused(Refusal::Table, table_fault(rows)));
        }
        if !check_namespaces(namespaces) {
            return Err(TableError::Refused(Refusal::Namespaces, namespaces_fault(namespaces)));
        }
        if rooms == Rooms::PROGRAM && rows.len() > PROGRAM_TABLE {
            return Err(TableError::NoRoom("a table that is recorded has at most 16,384 bytes"));
        }
        let held = split_rows(rows).0;
        let (mut records, mut area) = records_of(&held);
        records.resize(MAX_ROWS, Record::default());
        area.resize(rooms.area, 0);
        let (count, summary) = (held.len(), vec![Summary::default(); MAX_ROWS]);
        let namespaces = namespaces.to_vec();
        let mut table = Table { records, count, area, summary, namespaces, rooms };
        let counted = summarize(&table.records, count, &table.area, &mut table.summary);
        // Rows that pass in one form pass in the other, with the summary that is counted of them.
        if counted.is_err() || !check_records(table.records()) {
            return Err(TableError::Refused(Refusal::Table, "as records".to_string()));
        }
        Ok(table)
    }

    /// The same rows, laid out anew.
    pub fn laid_out(&self, rooms: Rooms) -> Result<Table, TableError> {
        Table::new(&self.packed(), &self.namespaces, rooms)
    }

    /// What it is lent.
    pub fn rooms(&self) -> Rooms {
        self.rooms
    }

    /// How many rows there are, and how many entries of the namespace list.
    pub fn counts(&self) -> (usize, usize) {
        (self.count, split_entries(&self.namespaces).0.len())
    }

    /// The records, as the library's walk takes them.
    pub fn records(&self) -> Records<'_> {
        let Table { records, count, area, summary, .. } = self;
        Records { records, count: *count, area, summary }
    }

    /// The rows in their packed form.
    pub fn packed(&self) -> Vec<u8> {
        rows_of(self.records()).filter_map(|row| row.to_bytes()).flatten().collect()
    }

    /// A frame for each row, then for each entry, LF after each.
    pub fn heading(&self) -> Vec<u8> {
        let rows = rows_of(self.records()).filter_map(|row| row.to_bytes()).map(Frame::Row);
        let entries = split_entries(&self.namespaces).0;
        let entries = entries.iter().filter_map(|entry| entry.to_bytes()).map(Frame::Entry);
        rows.chain(entries).flat_map(|frame| [frame.encode(), b"\n".to_vec()].concat()).collect()
    }

    /// One command of a reader, answered at the front of `out`. Rows change exactly if the answer says so. What is
    /// refused with 15 may leave the names moved together, and nothing else changes memory.
    pub fn answer(
        &mut self,
        reader: Reader,
        line: &[u8],
        out: &mut [u8],
    ) -> Result<Answered, Refusal> {
        let given = match self.answer_once(reader, line, out) {
            Err(Refusal::NoRoom) if self.rooms.compacts => {
                compact(&mut self.records, self.count, &mut self.area, &self.summary)?;
                self.answer_once(reader, line, out)?
            }
            given => given?,
        };
        self.count = given.count;
        Ok(given)
    }

    fn answer_once(
        &mut self,
        reader: Reader,
        line: &[u8],
        out: &mut [u8],
    ) -> Result<Answered, Refusal> {
        let Table { records, count, area, summary, namespaces, .. } = self;
        let table = RecordsMut { records, count: *count, area, summary };
        answer(reader, table, namespaces, line, out)
    }
}

/// The rows of records whose names lie inside of the area.
pub fn rows_of<'t>(table: Records<'t>) -> impl Iterator<Item = Row<'t>> {
    let Records { records, count, area, .. } = table;
    records.iter().take(count).filter_map(|record| {
        let start = usize::from(record.start);
        let name = area.get(start..start + usize::from(record.len))?;
        let readers = Readers::from_bits(record.readers);
        Some(Row { flags: Flags::from_bits(record.flags), readers, name })
    })
}

/// The records of rows, their names in row order without gaps, and these names. The rows are those of a packed table of at
/// most `MAX_TABLE` bytes.
pub fn records_of(rows: &[Row]) -> (Vec<Record>, Vec<u8>) {
    let (mut records, mut area) = (Vec::new(), Vec::new());
    for Row { flags, readers, name } in rows {
        let (start, len) = (area.len() as u16, name.len() as u8);
        records.push(Record { flags: flags.bits(), start, len, readers: readers.bits() });
        area.extend_from_slice(name);
    }
    (records, area)
}

impl fmt::Display for TableError {
    fn fmt(&self, formatter: &mut fmt::Formatter) -> fmt::Result {
        match self {
            TableError::Refused(refusal, text) => {
                write!(formatter, "refused with {refusal}; {text}")
            }
            TableError::NoRoom(text) => write!(formatter, "{text}"),
        }
    }
}

impl Error for TableError {}
