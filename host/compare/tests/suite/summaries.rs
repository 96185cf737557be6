//! What the generators of summaries reach (document 02, W13).

use compare::random::Random;
use compare::summaries::{some_edit, some_table, Damage};
use formats::rows::MAX_ROWS;
use second::table::checked_rows;
use second::{answer, check_table, summarize, Store, Summary, Table};

use crate::reached::Reached;

const SEEDS: u64 = 1_500;
const EDITS: usize = 30;
/// More than the OK line.
const ROOM: usize = 2_100;

fn passes(table: &Store) -> bool {
    check_table(Table::Records(table.as_records()))
}

/// Rows that one has below it, of any kind.
fn below(summary: &Summary) -> u16 {
    summary.subscribed_local + summary.existing_local + summary.existing_remote
}

/// What a table has, of rows below others and of names beside those.
fn kinds_of(table: &Store) -> Vec<(&'static str, bool)> {
    let rows = checked_rows(Table::Records(table.as_records())).expect("a table that passes");
    let has = |test: fn(&Summary) -> bool| table.summary[..table.count].iter().any(test);
    let between = |end: &[u8]| {
        let is_open = |name: &[u8]| {
            let [beside, child] = [end, b"/"].map(|end| [name, end].concat());
            let begins = |start: &[u8]| rows.iter().any(|row| row.name.starts_with(start));
            begins(&beside) && begins(&child)
        };
        rows.iter().any(|row| is_open(row.name))
    };
    vec![
        ("subscribed local below", has(|summary| summary.subscribed_local > 0)),
        ("subscribed remote below", has(|summary| summary.subscribed_remote > 0)),
        ("existing local below", has(|summary| summary.existing_local > 0)),
        ("existing remote below", has(|summary| summary.existing_remote > 0)),
        (
            "all four below one",
            has(|summary| {
                summary.subscribed_local > 0
                    && summary.subscribed_remote > 0
                    && summary.existing_local > 0
                    && summary.existing_remote > 0
            }),
        ),
        ("many below one", has(|summary| below(summary) > 100)),
        ("a dash between a name and its children", between(b"-")),
        ("a blank between a name and its children", between(b" ")),
        ("16 levels", rows.iter().any(|row| row.name.split(|&byte| byte == b'/').count() == 16)),
        ("511 rows", rows.len() == MAX_ROWS - 1),
        ("512 rows", rows.len() == MAX_ROWS),
        ("no spare record", table.count == table.records.len()),
    ]
}

/// What an edit comes to.
fn outcome(before: &Store, after: &Store, is_done: bool) -> &'static str {
    let below =
        |table: &Store| table.summary[..table.count].iter().filter(|one| below(one) > 0).count();
    match after.count {
        _ if !is_done => "refused",
        count if count > before.count && below(after) > below(before) => {
            "the first row below a name"
        }
        count if count < before.count && below(after) < below(before) => {
            "the last row below a name gone"
        }
        count if count > before.count => "a row inserted",
        count if count < before.count => "a row removed",
        _ if after.summary != before.summary => "a flag changed, and numbers above it",
        _ if after.records != before.records => "a flag changed",
        _ => "nothing changed",
    }
}

#[test]
fn what_the_series_reach() {
    let mut reached = Reached::default();
    for seed in 0..SEEDS {
        let mut random = Random::of("library: summaries", seed);
        let mut table = some_table(&mut random);
        assert!(passes(&table), "seed {seed}");
        reached.add_held(kinds_of(&table));
        for _ in 0..EDITS {
            let (before, line) = (table.clone(), some_edit(&mut random, &table));
            let done = table.lend(|lent| answer(0, lent, b"", &line, &mut [0; ROOM]));
            let changed = done.is_ok_and(|done| done.changed);
            assert_eq!(changed, table != before, "seed {seed}");
            reached.add(outcome(&before, &table, done.is_ok()));
        }
        assert!(passes(&table), "seed {seed}");
    }
    reached.check(&[
        ("subscribed local below", 700),
        ("subscribed remote below", 500),
        ("existing local below", 500),
        ("existing remote below", 600),
        ("all four below one", 200),
        ("many below one", 10),
        ("a dash between a name and its children", 400),
        ("a blank between a name and its children", 300),
        ("16 levels", 20),
        ("511 rows", 10),
        ("512 rows", 10),
        ("no spare record", 20),
        ("the first row below a name", 500),
        ("the last row below a name gone", 500),
        ("a row inserted", 1_500),
        ("a row removed", 1_500),
        ("a flag changed, and numbers above it", 800),
        ("a flag changed", 1_500),
        ("nothing changed", 3_000),
        ("refused", 1_000),
    ]);
}

/// Each damage refuses the table where it should, and counting afresh makes it pass again, where there are numbers for
/// its rows.
#[test]
fn what_damages_do() {
    let mut reached = Reached::default();
    for seed in 0..SEEDS {
        let mut random = Random::of("library: damaged summaries", seed);
        let before = some_table(&mut random);
        for damage in Damage::ALL {
            let mut table = before.clone();
            damage.apply(&mut random, &mut table);
            let does_pass = passes(&table);
            let is_harmless =
                matches!(damage, Damage::Spare | Damage::BelowRecords | Damage::AboveRecords);
            let is_harm = matches!(damage, Damage::RowByOne | Damage::RowBit | Damage::BelowRows);
            assert!(does_pass || !is_harmless, "seed {seed}, {damage:?}");
            assert!(!does_pass || !is_harm || before.count == 0, "seed {seed}, {damage:?}");
            reached.add(format!("{damage:?} {does_pass}"));
            let is_counted = table.lend(summarize).is_ok();
            assert_eq!(is_counted, damage != Damage::BelowRows || before.count == 0);
            assert_eq!(passes(&table), is_counted);
        }
    }
    reached.check(&[
        ("RowByOne false", 1_000),
        ("RowBit false", 1_000),
        ("OtherRow false", 300),
        ("Zero false", 700),
        ("Spare true", 1_000),
        ("BelowRows false", 1_000),
        ("BelowRecords true", 1_000),
        ("AboveRecords true", 1_000),
    ]);
}
