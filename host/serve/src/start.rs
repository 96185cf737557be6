//! What is said at the start: the table as it is served, and what an answer may have.

use formats::sha256::sum_of_bytes;
use luspemaro::{Answered, Reader, COMMAND_ROOM};

use crate::rooms::{Rooms, LIST_LINE};
use crate::table::Table;

/// Asks for every name that the reader sees.
const ALL: &[u8] = b"a LIST \"\" *\r\n";

/// One line about the table as it is served to a reader.
pub fn start_text(table: &Table, reader: Reader) -> String {
    let (rows, entries) = table.counts();
    let Rooms { area, answer, .. } = table.rooms();
    let mut text = format!(
        "{rows} rows, {entries} namespace entries, reader {}; SHA-256 of the packed rows {}; buffers: names {area} \
         bytes, a command {COMMAND_ROOM}, an answer {answer}",
        reader.number(),
        sum_of_bytes(&table.packed())
    );
    if table.rooms() == Rooms::PROGRAM {
        text += &format!("; {}", recorded_text(table, reader, answer));
    }
    if rows == 0 {
        text += "; the table is empty, so no mailbox is listed";
    }
    text
}

/// What a record does to long answers. A tag has fewer bytes than a command, so beside it there is room for so
/// many of the longest lines.
fn recorded_text(table: &Table, reader: Reader, most: usize) -> String {
    let lines = (most - COMMAND_ROOM) / LIST_LINE;
    let mut out = vec![0; Rooms::WIDE.answer];
    let all = table.clone().answer(reader, ALL, &mut out);
    let all = all.map_or_else(
        |refusal| format!("is refused with {}", refusal.number()),
        |Answered { length, .. }| match length {
            _ if length > most => format!("has {length} bytes now, and is refused"),
            _ => format!("has {length} bytes now, and is answered"),
        },
    );
    format!(
        "a record is written, so an answer of over {most} bytes is refused with 9, which cannot be for up to {lines} \
         names; LIST \"\" * {all}"
    )
}
