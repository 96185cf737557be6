//! What the second program says of a log, which is not proved: why its table does not pass, why a command is answered now as
//! it is, and which rule stops a log. No other module of this crate uses the second program.

use formats::log::Recorded;
use luspemaro::{Record, Records, Summary};
use second::frames::Program;
use second::replay::Turns;
use second::Store;
use session::second_program::{second_says, NOT_REFUSED};

pub use serve::second_program::{namespaces_fault, table_fault};
pub use session::second_program::UNPROVED;

use crate::table::KeptTable;

/// A frame of a command that waits for its answer.
const COMMAND_FRAME: &[u8] = b"4300";

/// What stops a log with 13.
#[derive(Clone, Copy, Debug, PartialEq, Eq)]
pub enum Cause<'f> {
    /// A frame, without its LF.
    Frame(&'f [u8]),
    /// The end of the log in the middle of a frame.
    NoLf,
    /// The end of the log after a command.
    NoAnswer,
}

/// The rule that a log breaks where it stops, with a command that waits for its answer or without.
pub fn stop_rule(is_answer_due: bool, cause: Cause) -> &'static str {
    let mut turns = Turns::default();
    let begun = if is_answer_due { turns.take(COMMAND_FRAME).err() } else { None };
    let stop = match cause {
        Cause::Frame(text) => turns.take(text).err(),
        Cause::NoLf => Some(turns.cut()),
        Cause::NoAnswer => turns.end().err(),
    };
    begun.or(stop).map_or(NOT_REFUSED, |stop| stop.rule)
}

/// Why a command is answered now as it is, over the table as it was before it and the packed rows that it started from.
/// The command is a frame without LF.
pub fn explained(
    before: &KeptTable,
    (rows, namespaces): (&[u8], &[u8]),
    command: &[u8],
    (now, recorded): (&Recorded, &Recorded),
) -> Vec<String> {
    let store = store_of(before);
    // Rows that do not pass are packed still.
    let table = if store.is_none() { rows.to_vec() } else { Vec::new() };
    let program = Program { table, namespaces: namespaces.to_vec(), store };
    second_says(program, command, &now.frame(), &recorded.frame())
}

/// The table as the second program keeps it; none where the rows do not pass.
pub fn store_of(table: &KeptTable) -> Option<Store> {
    let Records { records, count, area, summary } = table.records();
    let record = |&Record { flags, start, len, readers }: &Record| second::Record {
        flags,
        start,
        len,
        readers,
    };
    let number = |&Summary(number): &Summary| second::Summary::from_number(number);
    table.passes().then(|| Store {
        records: records.iter().map(record).collect(),
        count,
        area: area.to_vec(),
        summary: summary.iter().map(number).collect(),
    })
}

#[cfg(test)]
mod tests {
    use crate::second_program::*;

    /// Rows that pass are kept as the second program keeps them.
    #[test]
    fn stores() {
        let rows = b"\0\x01\xFF\x03Foo\0\x01\xFF\x03Goo";
        for length in 0..=rows.len() {
            let rows = &rows[..length];
            let table = KeptTable::of_packed(rows).expect("a table");
            let due = table.passes().then(|| Store::of_rows(&second::packed::split_rows(rows).0));
            assert_eq!(store_of(&table), due, "{length}");
        }
    }

    #[test]
    fn rules() {
        let cases: [(bool, Cause, &str); 6] = [
            (false, Cause::Frame(b"4161"), "a 41 or 52 follows the 43 that it answers"),
            (
                true,
                Cause::Frame(b"4300"),
                "a 43 is followed by its 41 or 52, and not by another 43",
            ),
            (true, Cause::Frame(b"4"), "a frame has an even number of digits"),
            (true, Cause::NoLf, "the last frame of a log ends with LF too"),
            (true, Cause::NoAnswer, "a log does not end after a 43"),
            (false, Cause::Frame(b"4300"), NOT_REFUSED),
        ];
        for (is_answer_due, cause, rule) in cases {
            assert_eq!(stop_rule(is_answer_due, cause), rule, "{cause:?}");
        }
    }
}
