//! Tables for compactions (document 02, W7): areas full of holes, as long series of edits leave them,
//! rubbish in the free bytes, and tables that do not pass.

use formats::name::MAX_NAME;
use formats::rows::Flags;
use second::records::{Record, MAX_AREA};
use second::{answer, check_table, Table};

use crate::edit_series;
use crate::edits::{edit_command, free_runs, name_of_length, SUBSCRIBE, UNSUBSCRIBE};
use crate::random::Random;
use crate::records::{extend, some_layout, Layout};
use crate::tables::{good_table, names_of};

/// The most rows of a layout without edits, and the fewest of a table that has one wave of them alone.
const FEW: usize = 14;
const MANY: usize = 100;
/// Bytes that an area has beside those of the names, and spare records, before the edits.
const ADDED_BYTES: [usize; 6] = [0, 20, 60, 150, 300, 600];
const ADDED_RECORDS: [usize; 5] = [0, 3, 10, 30, 60];
/// Lengths of the names that come and go.
const LENGTHS: [usize; 12] = [1, 2, 2, 3, 4, 5, 7, 8, 13, 21, 40, 200];
/// A wave of insertions ends when so many did not fit.
const REFUSALS: usize = 4;
/// More than the answer to an edit.
const ROOM: usize = 64;

/// A table, and the names that commands over it go for.
pub fn some_table(random: &mut Random) -> (Layout, Vec<Vec<u8>>) {
    match random.below(20) {
        0..4 => {
            let count = random.below(FEW);
            let rows = good_table(random, count);
            (some_layout(random, &rows), names_of(&rows))
        }
        4..8 => edit_series::some_table(random),
        _ => full_of_holes(random),
    }
}

/// Waves of edits over a table that passes: names of many lengths are subscribed until there is no room,
/// then many of them are unsubscribed again.
fn full_of_holes(random: &mut Random) -> (Layout, Vec<Vec<u8>>) {
    let (mut table, names) = edit_series::some_table(random);
    if check_table(Table::Records(table.as_records())) {
        let bytes = ADDED_BYTES[random.below(ADDED_BYTES.len())].min(MAX_AREA - table.area.len());
        let (byte, records) = (random.byte(), ADDED_RECORDS[random.below(ADDED_RECORDS.len())]);
        extend(&mut table, records, bytes, byte);
        let waves = if table.count < MANY { random.within(1..=3) } else { 1 };
        for _ in 0..waves {
            fill(random, &mut table);
            let kept = *random.pick(&[&30, &50, &70, &90]);
            remove(random, &mut table, kept);
        }
        if random.percent(20) {
            fill(random, &mut table);
        }
        if random.percent(60) {
            strew(random, &mut table);
        }
    }
    (table, names)
}

/// Subscribes new names until some did not fit.
fn fill(random: &mut Random, table: &mut Layout) {
    let mut refusals = 0;
    while refusals < REFUSALS {
        let length = LENGTHS[random.below(LENGTHS.len())];
        let name = name_of_length(random, length);
        refusals += usize::from(!edit(random, table, SUBSCRIBE, &name));
    }
}

/// Unsubscribes names without a mailbox, but for so many of a hundred.
fn remove(random: &mut Random, table: &mut Layout, kept: usize) {
    let is_removed = |record: &&Record| record.flags == Flags::SUBSCRIBED.bits();
    let rows = table.records[..table.count].iter().filter(is_removed);
    let names: Vec<Vec<u8>> = rows.map(|record| table.area[record.place()].to_vec()).collect();
    for name in names {
        if !random.percent(kept) {
            edit(random, table, UNSUBSCRIBE, &name);
        }
    }
}

/// Whether an edit is accepted.
fn edit(random: &mut Random, table: &mut Layout, word: &str, name: &[u8]) -> bool {
    let line = edit_command(random, word, name);
    table.lend(|lent| answer(0, lent, b"", &line, &mut [0; ROOM])).is_ok()
}

/// Puts anything into the bytes that no row uses.
fn strew(random: &mut Random, table: &mut Layout) {
    for at in free_runs(table).into_iter().flatten() {
        table.area[at] = random.byte();
    }
}

/// How many bytes no row of a table that passes uses.
pub fn free_bytes(table: &Layout) -> usize {
    free_runs(table).iter().map(|run| run.len()).sum()
}

/// A name about as long as all free bytes together, or as long as a name may be, that no row has but by
/// chance.
pub fn name_near_the_room(random: &mut Random, table: &Layout) -> Vec<u8> {
    let length = (free_bytes(table) + random.below(3)).saturating_sub(1);
    name_of_length(random, length.clamp(1, MAX_NAME))
}
