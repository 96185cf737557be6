//! Who may see which mailbox (document 02, W9): commands and walks of every reader, and two tables that
//! one reader sees alike.

use super::answers::{answer_both, answer_in_rooms, call_text};
use super::both::{Asked, Lent, Mailboxes, ANSWER, COLLECT, PROVED};
use super::compared::Compared;
use super::tally::{Tally, Text};
use super::walks::{collect_both, Rooms, OPTIONS};
use crate::commands::{command, damaged};
use crate::damage::{damaged_rows, namespace_list};
use crate::lsub::{lsub_command, subscriptions};
use crate::random::Random;
use crate::readers::{seen_alike, some_reader, veil};
use crate::records::{laid_out, some_layout};
use crate::tables::{names_of, table_bytes, NewRow};

/// The most rows of a table.
const FEW: usize = 18;
/// Readers that ask over one table.
const READERS: usize = 3;
/// Commands and walks over two tables.
const QUESTIONS: usize = 4;
const FILL: u8 = b'.';

/// Records in some layout, and packed tables beside their records. Some tables do not pass.
pub fn commands(tally: &mut Tally) {
    tally.for_each_seed(|tally, seed| {
        let mut random = Random::of("library: commands of readers", seed);
        let (rows, mut tables) = some_tables(&mut random);
        let names = names_of(&rows);
        for table in &mut tables {
            table.check(tally);
            for _ in 0..READERS {
                let reader = some_reader(&mut random);
                let line = question(&mut random, &names);
                let list =
                    if random.percent(10) { namespace_list(&mut random) } else { Vec::new() };
                answer_in_rooms(tally, table, Asked { reader, list: &list, line: &line });
            }
        }
    });
}

pub fn walks(tally: &mut Tally) {
    tally.for_each_seed(|tally, seed| {
        let mut random = Random::of("library: walks of readers", seed);
        let (_, tables) = some_tables(&mut random);
        for table in &tables {
            for _ in 0..READERS {
                let reader = some_reader(&mut random);
                let option = random.below(usize::from(OPTIONS)) as u8;
                let need = table.collect(tally, reader, option, Rooms::AMPLE);
                table.collect(tally, reader, option, need.near(&mut random));
            }
        }
    });
}

/// Rows with sets of readers, as records in some layout and as a packed table.
fn some_tables(random: &mut Random) -> (Vec<NewRow>, [Compared; 2]) {
    let count = random.below(FEW);
    let mut rows = subscriptions(random, count);
    veil(random, &mut rows);
    let layout =
        if random.percent(70) { laid_out(random, &rows) } else { some_layout(random, &rows) };
    let bad = random.percent(5);
    let packed = if bad { damaged_rows(random, rows.clone()) } else { rows.clone() };
    (rows, [Compared::records(layout), Compared::packed(table_bytes(&packed))])
}

/// A LIST, an LSUB or a NAMESPACE, now and then damaged.
fn question(random: &mut Random, names: &[Vec<u8>]) -> Vec<u8> {
    let line =
        if random.percent(60) { command(random, names) } else { lsub_command(random, names) };
    if random.percent(10) {
        return damaged(random, line);
    }
    line
}

/// "If two tables both pass their check and have the same names with the same flags visible to a
/// reader, then … that reader's LIST, LSUB and walk give the same bytes, numbers and counts": over both
/// tables by both libraries, and by the proved one over the one and over the other.
pub fn views(tally: &mut Tally) {
    tally.for_each_seed(|tally, seed| {
        let mut random = Random::of("library: views", seed);
        let count = random.within(1..=FEW);
        let mut rows = subscriptions(&mut random, count);
        let reader = veil(&mut random, &mut rows);
        let tables = [rows.clone(), seen_alike(&mut random, &rows, reader)];
        let records = tables.each_ref().map(|rows| Mailboxes::new(laid_out(&mut random, rows)));
        let packed = tables.each_ref().map(|rows| table_bytes(rows));
        let names = tables.each_ref().map(|rows| names_of(rows)).concat();
        for _ in 0..QUESTIONS {
            let line = question(&mut random, &names);
            let asked = Asked { reader: reader.number(), ..Asked::by_0(&line) };
            answer_alike(tally, &records, asked);
            let option = random.below(usize::from(OPTIONS)) as u8;
            let records = records.each_ref().map(Lent::Records);
            let packed = packed.each_ref().map(|table| Lent::Packed(table));
            walk_alike(tally, &mut random, reader.number(), [records, packed], option);
        }
    });
}

/// A command in buffers on both sides of the answer's length. The count that is given back is that of
/// the rows, which may differ.
fn answer_alike(tally: &mut Tally, tables: &[Mailboxes; 2], asked: Asked) {
    let need = answer_both(tally, &mut tables[0].clone(), asked, Rooms::AMPLE.scratch);
    for room in [Rooms::AMPLE.scratch, 0, need.saturating_sub(1), need, need + 1] {
        let given = tables.each_ref().map(|table| {
            answer_both(tally, &mut table.clone(), asked, room);
            let mut out = vec![FILL; room];
            let result = ANSWER[PROVED](&mut table.clone(), asked, &mut out);
            (result.map(|answered| answered.length), Text(out))
        });
        let call = || {
            let [one, other] = tables.each_ref().map(|table| call_text(table, asked, room));
            format!("two tables, one view\n{one}{other}")
        };
        tally.same_of(call, ["one", "other"], given);
    }
}

/// A walk over each form of each table, with room enough and with about what it needs.
fn walk_alike(
    tally: &mut Tally,
    random: &mut Random,
    reader: u8,
    forms: [[Lent; 2]; 2],
    option: u8,
) {
    let [first, _] = forms[0];
    let need = collect_both(tally, reader, [first; 2], option, Rooms::AMPLE);
    for rooms in [Rooms::AMPLE, need.near(random)] {
        for tables in forms {
            let given = tables.map(|table| {
                collect_both(tally, reader, [table; 2], option, rooms);
                let mut lent =
                    [rooms.scratch, rooms.found, rooms.pending].map(|room| vec![FILL; room]);
                let [scratch, found, pending] = &mut lent;
                let result = COLLECT[PROVED](reader, table, option, scratch, found, pending);
                (result, lent.map(Text))
            });
            let call = || {
                let [one, other] = tables;
                format!("two walks, one view: {reader}, {option}, {rooms:?}\n{one}{other}")
            };
            tally.same_of(call, ["one", "other"], given);
        }
    }
}
