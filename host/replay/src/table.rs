//! The table as the program of frames lays it out, lent to the library, passing or not.

use formats::log::Recorded;
use formats::rows::{split_rows, Row};
use formats::sizes::{PROGRAM_ANSWER, PROGRAM_AREA, PROGRAM_TABLE};
use luspemaro::{
    answer_from, check_table, replay, summarize, Record, Records, RecordsMut, Refusal, Replay,
    Replayed, Summary,
};
use serve::{records_of, rows_of, MAX_ROWS};

/// "512 records, names at first in row order without gaps from the start of 16,384 bytes", with their summary.
#[derive(Clone, Debug, PartialEq, Eq)]
pub struct KeptTable {
    records: Vec<Record>,
    count: usize,
    area: Vec<u8>,
    summary: Vec<Summary>,
    /// The packed rows where they do not pass: then no command changes them.
    unsound: Option<Vec<u8>>,
}

impl KeptTable {
    /// The table of packed rows, or why the program has none of them. Rows that do not pass are laid out too: of one that is
    /// cut short what is missing is zero, and every command over them is answered 1.
    pub fn of_packed(rows: &[u8]) -> Result<KeptTable, String> {
        if rows.len() > PROGRAM_TABLE {
            let length = rows.len();
            return Err(format!(
                "the rows have {length} bytes; a table that is replayed has at most {PROGRAM_TABLE}"
            ));
        }
        let (held, rest) = split_rows(rows);
        let (mut records, mut area) = records_of(&held);
        if !rest.is_empty() {
            let byte = |at: usize| rest.get(at).copied().unwrap_or_default();
            let (flags, start) = (u16::from_be_bytes([byte(0), byte(1)]), area.len() as u16);
            records.push(Record { flags, start, len: byte(3), readers: byte(2) });
            area.extend_from_slice(rest.get(4..).unwrap_or_default());
        }
        let count = records.len();
        if count > MAX_ROWS {
            return Err(format!(
                "there are {count} rows; a table that is replayed has at most {MAX_ROWS}"
            ));
        }
        records.resize(MAX_ROWS, Record::default());
        area.resize(PROGRAM_AREA, 0);
        let mut summary = vec![Summary::default(); MAX_ROWS];
        // Rows that do not pass have no summary, and the numbers stay zero.
        let counted = summarize(&records, count, &area, &mut summary);
        let unsound = (counted.is_err() || !check_table(rows)).then(|| rows.to_vec());
        Ok(KeptTable { records, count, area, summary, unsound })
    }

    pub fn count(&self) -> usize {
        self.count
    }

    /// Whether it passes check 1, by the library's word.
    pub fn passes(&self) -> bool {
        self.unsound.is_none()
    }

    fn lend(&mut self) -> RecordsMut<'_> {
        let KeptTable { records, count, area, summary, .. } = self;
        RecordsMut { records, count: *count, area, summary }
    }

    /// Feeds a piece of a log. `None` where the library did not take it.
    pub fn feed(
        &mut self,
        replay: &mut Replay,
        namespaces: &[u8],
        piece: &[u8],
    ) -> Option<Replayed> {
        let report = replay.feed(self.lend(), namespaces, piece)?;
        self.count = report.count;
        Some(report)
    }

    /// What a whole log comes to. The table is changed by it.
    pub fn replay(&mut self, namespaces: &[u8], log: &[u8]) -> Replayed {
        let report = replay(self.lend(), namespaces, log);
        self.count = report.count;
        report
    }

    /// What the library answers to one command. The table is changed by it.
    pub fn answer(&mut self, reader: u8, namespaces: &[u8], line: &[u8]) -> Recorded {
        let mut out = vec![0; PROGRAM_ANSWER];
        match self.answer_into(reader, namespaces, line, &mut out) {
            Ok(length) => {
                out.truncate(length);
                Recorded::Lines(out)
            }
            Err(refusal) => Recorded::Refused(refusal.number()),
        }
    }

    /// The same at the front of a buffer; the length of the answer.
    pub fn answer_into(
        &mut self,
        reader: u8,
        namespaces: &[u8],
        line: &[u8],
        out: &mut [u8],
    ) -> Result<usize, Refusal> {
        let answered = answer_from(reader, self.lend(), namespaces, line, out)?;
        self.count = answered.count;
        Ok(answered.length)
    }

    /// The rows in their packed form, one by one; of rows that do not pass also the bytes at the end that are no row.
    pub fn packed_rows(&self) -> Vec<Vec<u8>> {
        match &self.unsound {
            Some(rows) => {
                let (held, rest) = split_rows(rows);
                let rest = Some(rest.to_vec()).filter(|rest| !rest.is_empty());
                held.iter().filter_map(Row::to_bytes).chain(rest).collect()
            }
            None => rows_of(self.records()).filter_map(|row| row.to_bytes()).collect(),
        }
    }

    /// What is lent for a call that reads.
    pub fn records(&self) -> Records<'_> {
        let KeptTable { records, count, area, summary, .. } = self;
        Records { records, count: *count, area, summary }
    }
}

#[cfg(test)]
mod tests {
    use crate::table::*;

    const FOO: &[u8] = b"\0\x01\xFF\x03Foo";

    /// A row that is cut short anywhere is laid out so that no command passes, and is shown as it was given.
    #[test]
    fn rows_that_are_cut_short() {
        let rows = [FOO, b"\0\x01\xFF\x03Goo"].concat();
        for length in 0..=rows.len() {
            let mut table = KeptTable::of_packed(&rows[..length]).expect("a table");
            let is_whole = length % FOO.len() == 0;
            assert_eq!(table.passes(), is_whole, "{length}");
            assert_eq!(table.packed_rows().concat(), &rows[..length]);
            let answered = table.answer(0, b"", b"a NAMESPACE\r\n");
            assert_eq!(matches!(answered, Recorded::Lines(_)), is_whole, "{length}");
        }
    }

    #[test]
    fn more_than_the_program_keeps() {
        let row = |number: usize| format!("\0\x01\u{7F}\x03{number:03}").into_bytes();
        let rows: Vec<u8> = (0..512).flat_map(row).collect();
        assert_eq!(KeptTable::of_packed(&rows).map(|table| table.count()), Ok(512));
        let told = KeptTable::of_packed(&[&rows[..], FOO].concat()).expect_err("too many");
        assert_eq!(told, "there are 513 rows; a table that is replayed has at most 512");
        let told = KeptTable::of_packed(&[0; PROGRAM_TABLE + 1]).expect_err("too many");
        assert_eq!(told, "the rows have 16385 bytes; a table that is replayed has at most 16384");
    }
}
