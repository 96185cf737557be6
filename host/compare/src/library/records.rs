//! Records over an area: check 1, commands and walks; and packed tables beside their records.

use std::ops::RangeInclusive;

use formats::rows::{Flags, MAX_ROWS};
use second::records::{Record, MAX_AREA};

use super::answers::{answer_in_rooms, answer_over};
use super::both::Asked;
use super::compared::Compared;
use super::tables::numbered;
use super::tally::Tally;
use super::walks::{Rooms, OPTIONS};
use crate::commands::{command, damaged};
use crate::damage::{damaged_bytes, damaged_table, namespace_list};
use crate::lsub::{lsub_command, subscriptions};
use crate::random::Random;
use crate::records::{laid_out, some_layout, summarized, Layout};
use crate::tables::{good_table, names_of, table_bytes, NewRow};

/// The most rows of a table that is not at a limit.
const FEW: usize = 16;
const COMMANDS: [&[u8]; 5] = [
    b"a LIST \"\" *\r\n",
    b"a LIST (REMOTE) \"\" % RETURN (CHILDREN)\r\n",
    b"a NAMESPACE\r\n",
    b"a LSUB \"\" *\r\n",
    b"a LSUB \"\" %\r\n",
];

/// Layouts of every kind, each checked, some with commands and walks over them.
pub fn layouts(tally: &mut Tally) {
    tally.for_each_seed(|tally, seed| {
        let mut random = Random::of("library: records", seed);
        let count = random.below(FEW);
        let rows = good_table(&mut random, count);
        let mut table = Compared::records(some_layout(&mut random, &rows));
        table.check(tally);
        calls(tally, &mut random, &mut table, &rows);
    });
}

/// A packed table, good or damaged: its records, by the proved library, and itself, by the second
/// program, give the same answers; checks and walks of itself by both do too. One whose rows do not fill
/// it has no records.
pub fn of_packed(tally: &mut Tally) {
    tally.for_each_seed(|tally, seed| {
        let mut random = Random::of("library: records of packed tables", seed);
        let count = random.below(FEW);
        let rows = good_table(&mut random, count);
        let table = match random.below(10) {
            0..2 => damaged_table(&mut random, rows.clone()),
            2 => damaged_bytes(&mut random, table_bytes(&rows)),
            _ => table_bytes(&rows),
        };
        let mut table = Compared::packed(table);
        table.check(tally);
        calls(tally, &mut random, &mut table, &rows);
    });
}

/// LSUB over rows laid out in some way, over a layout that may have something wrong, and over the
/// packed table and its records.
pub fn lsub(tally: &mut Tally) {
    tally.for_each_seed(|tally, seed| {
        let mut random = Random::of("library: LSUB over records", seed);
        let count = random.below(FEW);
        let rows = subscriptions(&mut random, count);
        let line = lsub_command(&mut random, &names_of(&rows));
        let layouts = [laid_out(&mut random, &rows), some_layout(&mut random, &rows)];
        let packed = Compared::packed(table_bytes(&rows));
        for mut table in layouts.map(Compared::records).into_iter().chain([packed]) {
            answer_in_rooms(tally, &mut table, Asked::by_0(&line));
        }
    });
}

/// A command in buffers on both sides of the answer's length, or a walk, or neither.
fn calls(tally: &mut Tally, random: &mut Random, table: &mut Compared, rows: &[NewRow]) {
    match random.below(10) {
        0..3 => {
            let names: Vec<Vec<u8>> = rows.iter().map(|row| row.name.clone()).collect();
            let mut line = command(random, &names);
            if random.percent(10) {
                line = damaged(random, line);
            }
            let list = if random.percent(10) { namespace_list(random) } else { Vec::new() };
            answer_in_rooms(tally, table, Asked { reader: 0, list: &list, line: &line });
        }
        3..5 => {
            let option = random.below(usize::from(OPTIONS)) as u8;
            let need = table.collect(tally, 0, option, Rooms::AMPLE);
            table.collect(tally, 0, option, need.near(random));
        }
        _ => {}
    }
}

/// Areas, how many names lie in each, and the starts and lengths that each name takes in turn.
type Places = (&'static [u8], usize, RangeInclusive<u16>, RangeInclusive<u8>);

/// Check 1 at all places of one, of two and of three names in small areas.
pub fn small_areas(tally: &mut Tally) {
    each_small_area(&mut |layout| Compared::records(layout).check(tally));
}

/// All places of one, of two and of three names in small areas.
pub fn each_small_area(compare: &mut dyn FnMut(Layout)) {
    let one: [Places; 3] = [0..=301, 32_768..=33_069, 65_235..=65_535]
        .map(|starts| ([b'a'; 300].as_slice(), 1, starts, 0..=255));
    let two =
        [b"abab", b"aabb", b"abcd", b"dcba", b"ba/a"].map(|area| (&area[..], 2, 0..=5, 0..=4));
    let three =
        [b"abcd", b"dcba", b"bdac", b"cadb", b"a/ab"].map(|area| (&area[..], 3, 0..=3, 1..=3));
    for (area, names, starts, lengths) in one.into_iter().chain(two).chain(three) {
        let place =
            |start| lengths.clone().map(move |len| Record { flags: 1, start, len, readers: len });
        let places: Vec<Record> = starts.flat_map(place).collect();
        each_choice(area, &places, names, &mut Vec::new(), compare);
    }
}

/// So many records more, each at each of the places.
fn each_choice(
    area: &[u8],
    places: &[Record],
    more: usize,
    chosen: &mut Vec<Record>,
    compare: &mut dyn FnMut(Layout),
) {
    if more == 0 {
        let (records, count) = (chosen.clone(), chosen.len());
        return compare(summarized(records, count, area.to_vec()));
    }
    for &record in places {
        chosen.push(record);
        each_choice(area, places, more - 1, chosen, compare);
        chosen.pop();
    }
}

/// Areas, packed tables and numbers of rows on both sides of what passes, names at both ends of the
/// area, and counts of every kind; with commands and walks.
pub fn limits(tally: &mut Tally) {
    each_limit(&mut |layout| every_call(tally, Compared::records(layout)));
    for count in [MAX_ROWS - 1, MAX_ROWS, MAX_ROWS + 1] {
        for length in [4, 59, 60, 61] {
            every_call(tally, Compared::packed(table_bytes(&subscribed(count, length))));
        }
    }
}

/// Records whose area, number or count is on both sides of what passes.
pub fn each_limit(compare: &mut dyn FnMut(Layout)) {
    for count in [0, 1, 2, MAX_ROWS - 1, MAX_ROWS, MAX_ROWS + 1] {
        for length in [4, 63, 64] {
            for turned in [false, true] {
                for size in [0, MAX_AREA - 1, MAX_AREA, MAX_AREA + 1] {
                    compare(side_by_side(&subscribed(count, length), turned, size));
                }
            }
        }
    }
    let layout = side_by_side(&subscribed(3, 5), true, 0);
    for records in 0..=layout.records.len() {
        let high = (0..64).map(|bit| 1 << bit);
        for count in (0..=4).chain(high.clone()).chain(high.map(|bit| bit + records)) {
            let records = layout.records[..records].to_vec();
            compare(summarized(records, count, layout.area.clone()));
        }
    }
}

/// The rows side by side, ascending or descending, up to the end of an area of at least this size.
fn side_by_side(rows: &[NewRow], turned: bool, size: usize) -> Layout {
    let used: usize = rows.iter().map(|row| row.name.len()).sum();
    let mut records = vec![Record::default(); rows.len()];
    let mut area = Vec::new();
    for number in 0..rows.len() {
        let at = if turned { rows.len() - 1 - number } else { number };
        if number == 1 {
            area.resize(area.len() + size.saturating_sub(used), b'/');
        }
        records[at] = rows[at].record_at(area.len());
        area.extend_from_slice(&rows[at].name);
    }
    area.resize(area.len().max(size), b'/');
    summarized(records, rows.len(), area)
}

/// Rows with ascending names of one length, of at least 4.
fn subscribed(rows: usize, length: usize) -> Vec<NewRow> {
    let mut rows = numbered(rows, length);
    rows.iter_mut().for_each(|row| row.flags.add(Flags::SUBSCRIBED));
    rows
}

/// Check 1, commands, walks, and refusals after 1.
fn every_call(tally: &mut Tally, mut table: Compared) {
    table.check(tally);
    for line in COMMANDS {
        answer_over(tally, &mut table, Asked::by_0(line), MAX_ANSWER);
    }
    answer_over(tally, &mut table, Asked { reader: 0, list: b"\x09", line: b"" }, 0);
    for option in [1, OPTIONS] {
        table.collect(tally, 0, option, MAX_ROOMS);
    }
}

/// More than the answer to a command here, and what finds need at most: every byte of the area and a
/// length byte for each name.
const MAX_ANSWER: usize = 65_536;
const MAX_ROOMS: Rooms = Rooms { scratch: MAX_ANSWER, found: MAX_AREA + MAX_ROWS, pending: 0 };
