//! The summary beside the records (document 02, W13): series of edits that keep it up to date, and summaries that are
//! wrong, too short or too long.

use formats::rows::Flags;
use second::{check_table, Table};

use super::answers::answer_both;
use super::both::{Asked, Lent, Mailboxes, COMPACT, SUMMARIZE};
use super::compactions::change_both;
use super::records::each_limit;
use super::tables::check_both;
use super::tally::{Tally, SEED};
use super::walks::{collect_both, Rooms, OPTIONS};
use crate::commands::command;
use crate::edit_series::some_room;
use crate::edits::{SUBSCRIBE, UNSUBSCRIBE};
use crate::lsub::lsub_command;
use crate::random::Random;
use crate::readers::some_reader;
use crate::records::{extend, laid_out, some_layout, spare_number, Layout};
use crate::summaries::{family_name, some_edit, some_table, Damage};
use crate::tables::{good_table, NewRow};

/// The calls of one series.
const CALLS: usize = 40;
/// Commands over one summary.
const COMMANDS: usize = 3;
/// The most rows of a layout of any kind.
const FEW: usize = 16;

/// Families of names and full tables; each call goes on with what the one before has left. At the end of a series the
/// summary passes, and counting afresh changes nothing.
pub fn series(tally: &mut Tally) {
    tally.for_each_seed(|tally, seed| {
        let mut random = Random::of("library: summaries", seed);
        let mut table = Mailboxes::new(some_table(&mut random));
        for _ in 0..CALLS {
            call(tally, &mut random, &mut table);
        }
        check_both(tally, [Lent::Records(&table); 2]);
        let mut again = table.clone();
        change_both(tally, "summarize", SUMMARIZE, &mut again);
        let summaries = [&table, &again].map(|table| &table.layout().summary);
        tally.same_of(|| "a series of edits".to_string(), ["kept", "counted"], summaries);
    });
}

/// Names that are subscribed in every order, and then unsubscribed in every order.
const ORDERED: [&[u8]; 5] = [b"Foo", b"Foo x", b"Foo-x", b"Foo/Bar", b"Foo-x/y"];

/// Rows come and go in every order, among rows that stay: one above some of them, one below, and one that is remote.
pub fn every_order(tally: &mut Tally) {
    let stays = [("F", 1), ("Foo!", 3), ("Foo-x/y/z", 5), ("Foo/Bar/far", 7)];
    let rows =
        stays.map(|(name, flags)| NewRow::new(Flags::from_bits(flags), name.as_bytes().to_vec()));
    let mut random = Random::of("library: edits in every order", SEED);
    let mut layout = laid_out(&mut random, &rows);
    extend(&mut layout, ORDERED.len(), ORDERED.concat().len(), b'.');
    let table = Mailboxes::new(layout);
    each_order(&mut ORDERED.to_vec(), 0, &mut |names| {
        let mut full = table.clone();
        edit_all(tally, &mut full, SUBSCRIBE, names);
        each_order(&mut ORDERED.to_vec(), 0, &mut |names| {
            edit_all(tally, &mut full.clone(), UNSUBSCRIBE, names);
        });
    });
}

/// The same edit of each name in turn.
fn edit_all(tally: &mut Tally, table: &mut Mailboxes, word: &str, names: &[&[u8]]) {
    for name in names {
        let line = [b"a ", word.as_bytes(), b" \"", name, b"\"\r\n"].concat();
        answer_both(tally, table, Asked::by_0(&line), Rooms::AMPLE.scratch);
    }
}

/// Every order of the names from a place on.
fn each_order(names: &mut Vec<&[u8]>, from: usize, act: &mut dyn FnMut(&[&[u8]])) {
    if from == names.len() {
        return act(names);
    }
    for at in from..names.len() {
        names.swap(from, at);
        each_order(names, from + 1, act);
        names.swap(from, at);
    }
}

/// Mostly an edit; else a command that reads, a walk or a compaction.
fn call(tally: &mut Tally, random: &mut Random, table: &mut Mailboxes) {
    let names = [family_name(random)];
    let line = match random.below(40) {
        0 => command(random, &names),
        1 => lsub_command(random, &names),
        2 => {
            let option = random.below(usize::from(OPTIONS)) as u8;
            collect_both(tally, 0, [Lent::Records(table); 2], option, Rooms::AMPLE);
            return;
        }
        3 => {
            change_both(tally, "compact", COMPACT, table);
            return;
        }
        _ => some_edit(random, table.layout()),
    };
    let before = table.layout().clone();
    let room = some_room(random, &line);
    let length = answer_both(tally, table, Asked::by_0(&line), room);
    tally.reached.add(kind_of(&before, table.layout(), length));
}

/// What a command comes to.
fn kind_of(before: &Layout, after: &Layout, length: usize) -> &'static str {
    match after.count {
        _ if length == 0 => "refused",
        count if count > before.count => "a row inserted",
        count if count < before.count => "a row removed",
        _ if after != before => "a flag changed",
        _ => "answered, and nothing changed",
    }
}

/// A summary that is wrong, or has another length than the records: the check, commands of any reader, a walk, a
/// compaction, and counting afresh.
pub fn damaged(tally: &mut Tally) {
    tally.for_each_seed(|tally, seed| {
        let mut random = Random::of("library: damaged summaries", seed);
        let mut layout = some_table(&mut random);
        Damage::ALL[seed as usize % Damage::ALL.len()].apply(&mut random, &mut layout);
        let names = [family_name(&mut random)];
        let lines = [some_edit(&mut random, &layout), command(&mut random, &names)];
        let table = Mailboxes::new(layout);
        check_both(tally, [Lent::Records(&table); 2]);
        for line in lines.iter().map(Vec::as_slice).chain([b"".as_slice()]).take(COMMANDS) {
            let reader = if random.percent(80) { 0 } else { some_reader(&mut random) };
            let list: &[u8] = if random.percent(10) { b"\x09" } else { b"" };
            let room = some_room(&mut random, line);
            answer_both(tally, &mut table.clone(), Asked { reader, list, line }, room);
        }
        let option = random.below(usize::from(OPTIONS)) as u8;
        collect_both(tally, 0, [Lent::Records(&table); 2], option, Rooms::AMPLE);
        change_both(tally, "compact", COMPACT, &mut table.clone());
        change_both(tally, "summarize", SUMMARIZE, &mut table.clone());
    });
}

/// Counting afresh over records in every layout, most of which do not pass, and the check of what it leaves.
pub fn counted(tally: &mut Tally) {
    tally.for_each_seed(|tally, seed| {
        let mut random = Random::of("library: summaries of layouts", seed);
        let count = random.below(FEW);
        let rows = good_table(&mut random, count);
        let mut layout = some_layout(&mut random, &rows);
        Damage::ALL[random.below(Damage::ALL.len())].apply(&mut random, &mut layout);
        let mut table = Mailboxes::new(layout);
        let is_counted = change_both(tally, "summarize", SUMMARIZE, &mut table);
        check_both(tally, [Lent::Records(&table); 2]);
        let passes = check_table(Table::Records(table.layout().as_records()));
        let call = || format!("summarize, then check_table\n{}", Lent::Records(&table));
        tally.same_of(call, ["counted", "passes"], [is_counted, passes]);
    });
}

/// Areas, numbers of rows and counts on both sides of what passes, with runs of numbers on both sides of rows and
/// records.
pub fn limits(tally: &mut Tally) {
    each_limit(&mut |layout| {
        let (rows, records) = (layout.count.min(layout.records.len()), layout.records.len());
        for numbers in [0, rows.saturating_sub(1), rows, records, records + 1] {
            let mut layout = layout.clone();
            layout.summary.resize(numbers, spare_number(numbers));
            let mut table = Mailboxes::new(layout);
            check_both(tally, [Lent::Records(&table); 2]);
            let asked = Asked::by_0(b"a SUBSCRIBE x\r\n");
            answer_both(tally, &mut table.clone(), asked, Rooms::AMPLE.scratch);
            change_both(tally, "summarize", SUMMARIZE, &mut table);
        }
    });
}
