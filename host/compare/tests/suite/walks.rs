//! Walks of all sessions: what they are refused with (document 02, W12), and the names that they ask below.

use std::collections::BTreeSet;

use compare::kinds;
use compare::own_commands::longest_rows;
use compare::random::Random;
use formats::frames::Frame;
use formats::name::{ancestors, MAX_LEVELS, MAX_NAME};
use second::collector::WALK_REFUSALS;
use second::frames::{Answer, Program};
use second::{check_table, Table};

use crate::reached::Reached;

/// Of each kind.
const SEEDS: u64 = 6;
const TABLES: u64 = 2_000;

/// Each of the six numbers comes, and no other.
#[test]
fn walks_are_refused_with_six_numbers() {
    let mut refusals = BTreeSet::new();
    for kind in kinds() {
        for seed in 0..SEEDS {
            let mut program = Program::default();
            for frame in kind.session(seed).iter().filter(|frame| !frame.is_cut) {
                let answer = program.answer(&frame.text);
                let is_walk = matches!(Frame::decode(&frame.text), Ok(Frame::Walk { .. }));
                if let (true, Some(Answer::Refused(refusal))) = (is_walk, answer) {
                    refusals.insert(refusal);
                }
            }
        }
    }
    assert_eq!(refusals, BTreeSet::from(WALK_REFUSALS));
}

/// Names of 200 bytes, of 16 levels, of two, and with a quote or a backslash in every level.
#[test]
fn the_longest_names() {
    let mut reached = Reached::default();
    for seed in 0..TABLES {
        let rows = longest_rows(&mut Random::of("the longest names", seed));
        let bytes = compare::tables::table_bytes(&rows);
        assert!(check_table(Table::Packed(&bytes)), "seed {seed}");
        for name in rows.iter().map(|row| row.name.as_slice()) {
            let is_odd = |level: &[u8]| level.iter().any(|byte| b"\"\\".contains(byte));
            let above = ancestors(name).last().expect("two levels");
            let levels: Vec<&[u8]> = name.split(|&byte| byte == b'/').collect();
            reached.add_held([
                ("200 bytes", name.len() == MAX_NAME),
                ("16 levels", levels.len() == MAX_LEVELS),
                ("2 levels", levels.len() == 2),
                ("198 bytes above", above.len() == MAX_NAME - 2),
                ("odd levels", levels[..levels.len() - 1].iter().all(|level| is_odd(level))),
                ("odd levels all", levels.iter().all(|level| is_odd(level))),
            ]);
            reached.add("names");
        }
    }
    let names = reached.times("names");
    reached.check(&[
        ("200 bytes", names / 3),
        ("16 levels", names / 5),
        ("2 levels", names / 5),
        ("198 bytes above", names / 4),
        ("odd levels", names),
        ("odd levels all", names / 2),
    ]);
}
