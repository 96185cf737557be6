//! Series of calls over lent records and an area (document 02, W6): edits, with other commands and walks
//! between them.

use formats::rows::{Flags, MAX_ROWS};
use second::records::{Record, MAX_AREA};
use second::{check_table, Table};

use crate::commands::command;
use crate::damage::namespace_list;
use crate::edits::{edit_command, length_near_a_run, name_of_length, some_edit, SUBSCRIBE};
use crate::lsub::{lsub_command, subscriptions};
use crate::random::Random;
use crate::readers::{some_reader, veil_records};
use crate::records::{some_layout, summarized, Layout};
use crate::tables::{names_of, NewRow};

/// A call over what the calls before it have left.
pub enum Call {
    Answer(Command),
    Walk { reader: u8, option: u8 },
}

/// A command, and what is lent beside the records and the area.
pub struct Command {
    pub reader: u8,
    /// How many of the records are said to be rows.
    pub count: usize,
    pub namespaces: Vec<u8>,
    pub line: Vec<u8>,
    /// The length of the buffer.
    pub room: usize,
}

/// The most rows of a table that is not at a limit.
const FEW: usize = 14;
/// More than any answer of a table with few rows.
const ROOM: usize = 16_384;
/// The OK line without its tag.
const OK_LINE: usize = " OK done\r\n".len();
/// Lengths of the unused runs between two names.
const RUNS: [usize; 10] = [0, 0, 1, 2, 3, 5, 8, 21, 60, 200];
/// Numbers of spare records.
const SPARE: [usize; 5] = [0, 1, 3, 8, 40];
/// Option bytes up to one above the lawful ones.
const OPTIONS: usize = 9;

/// The next call, of reader 0: mostly an edit, most of which meet a name of the table, or a free run of its area.
pub fn some_call(random: &mut Random, table: &Layout, names: &mut Vec<Vec<u8>>) -> Call {
    let line = match random.below(20) {
        0..8 => some_edit(random, names, &passing(table)),
        8..15 => {
            let length = length_near_a_run(random, &passing(table));
            let name = name_of_length(random, length);
            let line = edit_command(random, SUBSCRIBE, &name);
            names.push(name);
            line
        }
        15 | 16 => command(random, names),
        17 | 18 => lsub_command(random, names),
        _ => return Call::Walk { reader: 0, option: random.below(OPTIONS) as u8 },
    };
    let count = if random.percent(3) { odd_count(random, table) } else { table.count };
    let namespaces = if random.percent(3) { namespace_list(random) } else { Vec::new() };
    let room = some_room(random, &line);
    Call::Answer(Command { reader: 0, count, namespaces, line, room })
}

/// The same of some reader, most of them reader 0, to whom alone edits are allowed.
pub fn some_call_of_a_reader(
    random: &mut Random,
    table: &Layout,
    names: &mut Vec<Vec<u8>>,
) -> Call {
    let by = if random.percent(60) { 0 } else { some_reader(random) };
    match some_call(random, table, names) {
        Call::Answer(command) => Call::Answer(Command { reader: by, ..command }),
        Call::Walk { option, .. } => Call::Walk { reader: some_reader(random), option },
    }
}

/// A table with some sets of readers, and the names that edits go for.
pub fn some_veiled_table(random: &mut Random) -> (Layout, Vec<Vec<u8>>) {
    let (mut table, names) = some_table(random);
    veil_records(random, &mut table.records);
    (table, names)
}

/// A table, and the names that edits go for.
pub fn some_table(random: &mut Random) -> (Layout, Vec<Vec<u8>>) {
    let count = random.below(FEW);
    let rows = match random.below(40) {
        0 => numbered_rows(random, MAX_ROWS - 1, 3),
        1 => numbered_rows(random, MAX_ROWS, 3),
        2 => numbered_rows(random, 160, 200),
        _ => subscriptions(random, count),
    };
    let names = names_of(&rows);
    if random.percent(3) {
        return (some_layout(random, &rows), names);
    }
    (in_pieces(random, &rows), names)
}

/// Rows of names of one length, half of them 0002.
fn numbered_rows(random: &mut Random, count: usize, length: usize) -> Vec<NewRow> {
    let row = |number| {
        let flags = if random.percent(50) { Flags::SUBSCRIBED } else { Flags::EXISTS };
        NewRow::new(flags, format!("{number:0length$}").into_bytes())
    };
    (0..count).map(row).collect()
}

/// The rows in some order of their names' bytes, with unused runs of many lengths between them, as far
/// as the area goes, and spare records. What is unused or spare holds anything.
pub fn in_pieces(random: &mut Random, rows: &[NewRow]) -> Layout {
    let mut order: Vec<usize> = (0..rows.len()).collect();
    random.shuffle(&mut order);
    let mut left = MAX_AREA - rows.iter().map(|row| row.name.len()).sum::<usize>();
    let mut unused = |random: &mut Random, area: &mut Vec<u8>| {
        let length = RUNS[random.below(RUNS.len())].min(left);
        left -= length;
        area.extend((0..length).map(|_| random.byte()));
    };
    let mut records = vec![Record::default(); rows.len()];
    let mut area = Vec::new();
    for at in order {
        unused(random, &mut area);
        records[at] = rows[at].record_at(area.len());
        area.extend_from_slice(&rows[at].name);
    }
    unused(random, &mut area);
    for _ in 0..SPARE[random.below(SPARE.len())] {
        let number = |random: &mut Random| u16::from_be_bytes([random.byte(), random.byte()]);
        let (flags, start, len) = (number(random), number(random), random.byte());
        records.push(Record { flags, start, len, readers: start as u8 });
    }
    summarized(records, rows.len(), area)
}

/// The table, or one without rows in place of a table that does not pass.
pub fn passing(table: &Layout) -> Layout {
    let passes = check_table(Table::Records(table.as_records()));
    Layout { count: if passes { table.count } else { 0 }, ..table.clone() }
}

/// Room for every answer, or about as much as the OK line takes.
pub fn some_room(random: &mut Random, line: &[u8]) -> usize {
    let tag = line.iter().position(|&byte| byte == b' ').unwrap_or(0);
    match random.below(10) {
        0 => random.below(OK_LINE),
        1..4 => tag + OK_LINE - 1 + random.below(3),
        _ => ROOM,
    }
}

/// A count that makes rows spare, spare records rows, or that no records have.
pub fn odd_count(random: &mut Random, layout: &Layout) -> usize {
    let records = layout.records.len();
    match random.below(4) {
        0 => random.below(layout.count.min(records) + 1),
        1 => records,
        2 => records + 1 + random.below(3),
        _ => usize::MAX - random.below(3),
    }
}
