//! Names moved together over lent records and areas, and what is answered straight after it.

use formats::rows::MAX_ROWS;

use super::answers::{answer_both, call_text};
use super::both::{Asked, Change, Lent, Mailboxes, ANSWER, COMPACT, PROVED, SECOND};
use super::records::{each_limit, each_small_area};
use super::tally::{Tally, Text};
use super::walks::{collect_both, Rooms, OPTIONS};
use crate::commands::command;
use crate::compactions::{free_bytes, name_near_the_room, some_table};
use crate::edit_series::some_room;
use crate::edits::{edit_command, some_edit, SUBSCRIBE};
use crate::lsub::lsub_command;
use crate::random::Random;
use crate::readers::{some_reader, veil_records};
use crate::records::Layout;

/// Of each table: edits, and names about as long as its free bytes.
const EDITS: usize = 4;
const NAMES: usize = 4;
/// What an insertion without room is refused with.
const NO_ROOM: u8 = 15;
const FILL: u8 = b'.';

/// Areas full of holes, and tables that do not pass. Each command and walk comes straight after the
/// operation, and the proved library is asked before it too.
pub fn of_holes(tally: &mut Tally) {
    tally.for_each_seed(|tally, seed| {
        let mut random = Random::of("library: compactions", seed);
        let (mut layout, mut names) = some_table(&mut random);
        let mut veiling = Random::of("library: readers of compactions", seed);
        veil_records(&mut veiling, &mut layout.records);
        let reader = some_reader(&mut veiling);
        let before = Mailboxes::new(layout);
        let mut after = before.clone();
        if !compact_both(tally, &mut after) {
            return;
        }
        compact_again(tally, &after);
        let mut lines = vec![
            (reader, command(&mut random, &names)),
            (reader, lsub_command(&mut random, &names)),
        ];
        for _ in 0..EDITS {
            lines.push((0, some_edit(&mut random, &mut names, before.layout())));
        }
        for (reader, line) in lines {
            let room = some_room(&mut random, &line);
            let asked = Asked { reader, ..Asked::by_0(&line) };
            answer_before_and_after(tally, [&before, &after], asked, room);
        }
        for _ in 0..NAMES {
            insert(tally, &mut random, [&before, &after]);
        }
        let option = random.below(usize::from(OPTIONS)) as u8;
        for proved in [&before, &after] {
            let tables = [proved, &after].map(Lent::Records);
            collect_both(tally, reader, tables, option, Rooms::AMPLE);
        }
    });
}

/// All places of one, of two and of three names in small areas.
pub fn small_areas(tally: &mut Tally) {
    each_small_area(&mut |layout| compact_layout(tally, layout));
}

/// Areas, numbers of rows and counts on both sides of what passes.
pub fn limits(tally: &mut Tally) {
    each_limit(&mut |layout| compact_layout(tally, layout));
}

fn compact_layout(tally: &mut Tally, layout: Layout) {
    compact_both(tally, &mut Mailboxes::new(layout));
}

fn compact_both(tally: &mut Tally, table: &mut Mailboxes) -> bool {
    change_both(tally, "compact", COMPACT, table)
}

/// By both libraries, each over its own records: result, every record, every number of the summary and every byte
/// of the area are compared. Gives whether it was done.
pub fn change_both(
    tally: &mut Tally,
    name: &str,
    change: [Change; 2],
    table: &mut Mailboxes,
) -> bool {
    let before = table.layout().clone();
    let [proved, second] = [PROVED, SECOND].map(|who| change[who](table));
    let call = || format!("{name}: table before\n{}", Lent::Records(&Mailboxes::new(before)));
    tally.same(call, [(proved, table.difference()), (second, None)]);
    second.is_ok()
}

/// Once more changes nothing.
fn compact_again(tally: &mut Tally, once: &Mailboxes) {
    let mut twice = once.clone();
    compact_both(tally, &mut twice);
    let call = || "compact: once more".to_string();
    tally.same_of(call, ["once", "twice"], [once.layout(), twice.layout()]);
}

/// A command of both libraries after the operation, and of the proved one before it: every answer stays
/// but 15, and an edit leaves the same rows.
fn answer_before_and_after(
    tally: &mut Tally,
    [before, after]: [&Mailboxes; 2],
    asked: Asked,
    room: usize,
) {
    answer_both(tally, &mut after.clone(), asked, room);
    let mut tables = [before.clone(), after.clone()];
    let [then, now] = tables.each_mut().map(|table| {
        let mut out = vec![FILL; room];
        let result = ANSWER[PROVED](table, asked, &mut out);
        (result, Text(out))
    });
    if then.0 == Err(NO_ROOM) {
        return;
    }
    let [rows_then, rows_now] = tables.each_ref().map(Mailboxes::proved_rows);
    let call = || call_text(before, asked, room);
    tally.same_of(call, ["before", "after"], [(then, rows_then), (now, rows_now)]);
}

/// SUBSCRIBE of a name about as long as all free bytes together: 15 exactly if they are too few, or
/// there is no room for a row.
fn insert(tally: &mut Tally, random: &mut Random, tables: [&Mailboxes; 2]) {
    let [_, after] = tables;
    let Layout { records, count, .. } = after.layout();
    let name = name_near_the_room(random, after.layout());
    let line = edit_command(random, SUBSCRIBE, &name);
    let room = some_room(random, &line);
    answer_before_and_after(tally, tables, Asked::by_0(&line), room);
    if after.proved_rows().iter().any(|&(_, _, row)| row == name) {
        return;
    }
    let has_room = *count < MAX_ROWS.min(records.len()) && name.len() <= free_bytes(after.layout());
    let result = ANSWER[PROVED](&mut after.clone(), Asked::by_0(&line), &mut vec![FILL; room]);
    let call = || call_text(after, Asked::by_0(&line), room);
    tally.same_of(call, ["15 is given", "15 is due"], [result == Err(NO_ROOM), !has_room]);
}
