//! What series of calls over lent records reach (document 02, W6).

use compare::edit_series::{
    some_call, some_call_of_a_reader, some_table, some_veiled_table, Call, Command,
};
use compare::edits::free_runs;
use compare::random::Random;
use compare::records::set_count;
use formats::rows::MAX_ROWS;
use second::records::MAX_AREA;
use second::{answer, Refusal, Store};

use crate::reached::Reached;

const SEEDS: u64 = 1_500;
const CALLS: usize = 40;

/// What a call comes to.
fn outcome(table: &mut Store, command: &Command) -> String {
    let (before, mut out) = (table.clone(), vec![0; command.room]);
    set_count(table, command.count);
    let called = table.clone();
    let Command { reader, namespaces, line, .. } = command;
    let result = table.lend(|lent| answer(*reader, lent, namespaces, line, &mut out));
    match result.map_err(Refusal::number) {
        Err(number) => {
            assert_eq!(*table, called);
            *table = before;
            format!("refused with {number}")
        }
        Ok(answered) if !answered.is_edit => "read".to_string(),
        Ok(_) if table.count > command.count => insertion(&before, table).to_string(),
        Ok(_) if table.count < command.count => "removed".to_string(),
        Ok(_) if table.records != before.records => "flag changed".to_string(),
        Ok(_) => "nothing changed".to_string(),
    }
}

/// Into which free run a name went.
fn insertion(before: &Store, after: &Store) -> &'static str {
    let used = |store: &Store| -> usize { free_runs(store).iter().map(|run| run.len()).sum() };
    let (runs, length) = (free_runs(before), used(before).saturating_sub(used(after)));
    let is_filled = free_runs(after).len() < runs.len();
    match runs.iter().position(|run| run.len() >= length) {
        Some(0) if is_filled => "inserted into the first run, filling it",
        Some(0) => "inserted into the first run",
        _ if is_filled => "inserted into a later run, filling it",
        _ => "inserted into a later run",
    }
}

/// What the calls of series reach.
fn reached_by(
    stream: &str,
    some_table: fn(&mut Random) -> (Store, Vec<Vec<u8>>),
    some_call: fn(&mut Random, &Store, &mut Vec<Vec<u8>>) -> Call,
) -> Reached {
    let mut reached = Reached::default();
    for seed in 0..SEEDS {
        let mut random = Random::of(stream, seed);
        let (mut table, mut names) = some_table(&mut random);
        for _ in 0..CALLS {
            match some_call(&mut random, &table, &mut names) {
                Call::Walk { reader, .. } if reader > 7 => reached.add("a walk of no reader"),
                Call::Walk { .. } => reached.add("a walk"),
                Call::Answer(command) => {
                    reached.add(outcome(&mut table, &command));
                    let is_above = command.count > table.records.len();
                    reached.add_held([("a count above the records", is_above)]);
                }
            }
        }
        reached.add_held([
            ("512 rows", table.count == MAX_ROWS),
            ("the largest area", table.area.len() == MAX_AREA),
            ("no spare record", table.count == table.records.len()),
        ]);
    }
    reached
}

#[test]
fn what_the_series_reach() {
    let reached = reached_by("library: edits", some_table, some_call);
    reached.check(&[
        ("refused with 1", 800),
        ("refused with 2", 50),
        ("refused with 3", 20),
        ("refused with 4", 100),
        ("refused with 5", 50),
        ("refused with 9", 2_000),
        ("refused with 14", 500),
        ("refused with 15", 2_000),
        ("inserted into the first run", 300),
        ("inserted into the first run, filling it", 300),
        ("inserted into a later run", 300),
        ("inserted into a later run, filling it", 300),
        ("removed", 1_000),
        ("flag changed", 500),
        ("nothing changed", 1_000),
        ("read", 2_000),
        ("a walk", 1_000),
        ("a count above the records", 300),
        ("512 rows", 30),
        ("the largest area", 10),
        ("no spare record", 100),
    ]);
}

/// The same of every reader, to one of whom alone edits are allowed.
#[test]
fn what_the_series_of_every_reader_reach() {
    let stream = "library: edits of readers";
    let reached = reached_by(stream, some_veiled_table, some_call_of_a_reader);
    reached.check(&[
        ("refused with 1", 500),
        ("refused with 9", 1_000),
        ("refused with 14", 300),
        ("refused with 15", 1_000),
        ("refused with 16", 10_000),
        ("inserted into the first run", 200),
        ("inserted into a later run", 200),
        ("removed", 500),
        ("flag changed", 300),
        ("nothing changed", 500),
        ("read", 2_000),
        ("a walk", 1_000),
        ("a walk of no reader", 50),
    ]);
}
