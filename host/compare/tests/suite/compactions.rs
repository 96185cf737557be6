//! What the tables for compactions reach (document 02, W7), and what the second program makes of them.

use compare::compactions::{free_bytes, name_near_the_room, some_table};
use compare::edits::free_runs;
use compare::random::Random;
use formats::rows::MAX_ROWS;
use second::records::MAX_AREA;
use second::table::checked_rows;
use second::{answer, compact, Refusal, Store, Table};

use crate::reached::Reached;

const SEEDS: u64 = 1_000;

/// What a table is before the operation, and the operation makes of it.
fn kinds_of(before: &Store, after: &Store) -> Vec<(&'static str, bool)> {
    let runs = free_runs(before);
    let starts = |table: &Store| -> Vec<u16> {
        table.records[..table.count].iter().map(|row| row.start).collect()
    };
    let is_rubbish = |at: usize| before.area[at] != 0;
    vec![
        ("no free byte", runs.is_empty()),
        ("one run", runs.len() == 1),
        ("two to five runs", (2..=5).contains(&runs.len())),
        ("more runs", runs.len() > 5),
        ("free bytes at the front", runs.first().is_some_and(|run| run.start == 0)),
        ("free bytes at the end", runs.last().is_some_and(|run| run.end == before.area.len())),
        ("rubbish", runs.into_iter().flatten().any(is_rubbish)),
        ("rows in another order than their starts", !starts(before).is_sorted()),
        ("names that move", starts(before) != starts(after)),
        ("nothing changes", before == after),
        ("no row", before.count == 0),
        ("no spare record", before.count == before.records.len()),
        ("512 rows", before.count == MAX_ROWS),
        ("the largest area", before.area.len() == MAX_AREA),
        ("free bytes that a name may have", (1..=200).contains(&free_bytes(before))),
    ]
}

/// What comes of a name about as long as the free bytes, before the operation and after it.
fn insertion(random: &mut Random, before: &Store, after: &Store) -> &'static str {
    let name = name_near_the_room(random, after);
    let line = [b"a SUBSCRIBE ", name.as_slice(), b"\r\n"].concat();
    let subscribe = |table: &Store| {
        let answered = table.clone().lend(|lent| answer(0, lent, b"", &line, &mut [0; 20]));
        answered.map(drop)
    };
    match (subscribe(before), subscribe(after)) {
        (Err(Refusal::NoRoom), Err(Refusal::NoRoom)) => "15 before and after",
        (Err(Refusal::NoRoom), Ok(())) => "15 before alone",
        (Ok(()), Ok(())) => "done before and after",
        other => panic!("{other:?}"),
    }
}

/// The rows by name and flags.
fn rows_of(table: &Store) -> Vec<(u16, Vec<u8>)> {
    let rows = checked_rows(Table::Records(table.as_records())).expect("a table that passes");
    rows.iter().map(|row| (row.flags.bits(), row.name.to_vec())).collect()
}

#[test]
fn what_the_tables_reach() {
    let mut reached = Reached::default();
    for seed in 0..SEEDS {
        let mut random = Random::of("library: compactions", seed);
        let (before, _) = some_table(&mut random);
        let mut after = before.clone();
        if after.lend(compact).is_err() {
            assert!(before == after, "seed {seed}");
            reached.add("refused with 1");
            continue;
        }
        assert_eq!(rows_of(&before), rows_of(&after), "seed {seed}");
        let runs = free_runs(&after);
        assert!(runs.len() <= 1 && runs.iter().all(|run| run.end == after.area.len()));
        assert!(runs.into_iter().flatten().all(|at| after.area[at] == 0), "seed {seed}");
        reached.add_held(kinds_of(&before, &after));
        reached.add(insertion(&mut random, &before, &after));
    }
    reached.check(&[
        ("refused with 1", 100),
        ("no free byte", 30),
        ("one run", 30),
        ("two to five runs", 150),
        ("more runs", 300),
        ("free bytes at the front", 200),
        ("free bytes at the end", 400),
        ("rubbish", 500),
        ("rows in another order than their starts", 500),
        ("names that move", 500),
        ("nothing changes", 30),
        ("no row", 15),
        ("no spare record", 100),
        ("512 rows", 5),
        ("the largest area", 10),
        ("free bytes that a name may have", 250),
        ("15 before and after", 200),
        ("15 before alone", 150),
        ("done before and after", 150),
    ]);
}
