//! What the sessions with readers reach (document 02, W9), and that a reader's view does not hang on what
//! is hidden from it.

use std::collections::{BTreeMap, BTreeSet};

use compare::kinds;
use compare::lsub::subscriptions;
use compare::random::Random;
use compare::readers::{seen_alike, some_reader, some_set, veil};
use compare::records::laid_out;
use compare::tables::{names_of, NewRow};
use formats::frames::Frame;
use formats::name;
use formats::readers::{Reader, Readers};
use formats::rows::Flags;
use second::frames::{Answer, Program};
use second::{answer_reading, check_table, collect, Table};

use crate::reached::{check_often, Reached};

/// Of each kind.
const SEEDS: u64 = 40;
const TABLES: u64 = 3_000;
const ROOM: usize = 16_384;

#[test]
fn readers_and_sets() {
    let mut random = Random::of("readers", 0);
    let readers: BTreeSet<u8> = (0..2_000).map(|_| some_reader(&mut random)).collect();
    assert!((0..8).all(|reader| readers.contains(&reader)) && readers.contains(&255));
    let sets: BTreeSet<u8> = (0..20_000).map(|_| some_set(&mut random).bits()).collect();
    assert_eq!(sets.len(), 256);
}

/// What comes of a frame, by its reader.
fn what_of(program: &mut Program, frame: &[u8]) -> Vec<String> {
    let reader = match Frame::decode(frame) {
        Ok(Frame::Command { reader, .. } | Frame::Walk { reader, .. }) => reader,
        _ => return program.answer(frame).iter().map(|_| "a row refused".to_string()).collect(),
    };
    let mut what =
        vec![if reader > 7 { "no reader".to_string() } else { format!("reader {reader}") }];
    what.push(match program.answer(frame) {
        Some(Answer::Refused(refusal)) => refusal.number().to_string(),
        Some(Answer::Walked { found, .. }) if found.is_empty() => "an empty walk".to_string(),
        Some(Answer::Walked { .. }) => "a walk".to_string(),
        Some(Answer::Lines(lines)) if lines.starts_with(b"* LSUB") => "LSUB lines".to_string(),
        Some(Answer::Lines(lines)) if lines.starts_with(b"* ") => "lines".to_string(),
        _ => "nothing".to_string(),
    });
    what
}

#[test]
fn what_the_sessions_reach() {
    let numbers: Vec<String> = (0..8).map(|number| format!("reader {number}")).collect();
    let mut every: Vec<(&str, usize)> =
        numbers.iter().map(|number| (number.as_str(), 60)).collect();
    every.extend([
        ("no reader", 30),
        ("16", 30),
        ("4", 10),
        ("6", 20),
        ("lines", 100),
        ("LSUB lines", 100),
        ("nothing", 100),
        ("a walk", 50),
        ("an empty walk", 30),
    ]);
    check_often("every reader", &every, what_of);
    check_often(
        "growing views",
        &[("16", 10), ("lines", 60), ("LSUB lines", 60), ("a walk", 20), ("an empty walk", 20)],
        what_of,
    );
    check_often("hidden parents", &[("lines", 150), ("nothing", 50), ("a walk", 20)], what_of);
    check_often(
        "changes of what is hidden",
        &[("lines", 300), ("LSUB lines", 150), ("nothing", 300), ("a walk", 100)],
        what_of,
    );
}

/// How often a level is listed that is a row, hidden from the reader who asks.
#[test]
fn hidden_parents_are_listed() {
    let kind = kinds().find(|kind| kind.name == "hidden parents").expect("a kind");
    let mut reached = Reached::default();
    for seed in 0..SEEDS {
        let mut program = Program::default();
        for frame in kind.session(seed) {
            let answer = program.answer(&frame.text);
            let Ok(Frame::Command { reader, .. }) = Frame::decode(&frame.text) else { continue };
            let (Some(Answer::Lines(lines)), Some(reader)) = (answer, Reader::of(reader)) else {
                continue;
            };
            let store = program.records().expect("a table that passes");
            let table = Table::Records(store.as_records());
            let rows = second::table::checked_rows(table).expect("rows");
            let is_hidden =
                |row: &&second::rows::Row| !Readers::from_bits(row.readers.bits()).has(reader);
            for row in rows.iter().filter(is_hidden) {
                let quoted = [b" \"", row.name, b"\"\r\n"].concat();
                let is_listed = lines.windows(quoted.len()).any(|window| window == quoted);
                reached.add_held([("a hidden row whose name is listed", is_listed)]);
            }
        }
    }
    reached.check(&[("a hidden row whose name is listed", 100)]);
}

/// The same question of the same reader has the same answer, whatever happens to what is hidden from it.
#[test]
fn questions_asked_again() {
    let kind = kinds().find(|kind| kind.name == "changes of what is hidden").expect("a kind");
    let mut reached = Reached::default();
    for seed in 0..SEEDS {
        let mut program = Program::default();
        let mut answers: BTreeMap<Vec<u8>, Vec<u8>> = BTreeMap::new();
        for frame in kind.session(seed) {
            let before = program.store.clone();
            let Some(answer) = program.answer(&frame.text) else { continue };
            if program.store != before {
                reached.add("an edit");
                continue;
            }
            // An edit of reader 0 may be asked again too, and is answered OK again.
            let question = Frame::decode(&frame.text).expect("a frame").encode();
            let answer = answer.to_line();
            match answers.get(&question) {
                Some(first) => {
                    assert_eq!(answer, *first, "seed {seed}");
                    reached.add("asked again");
                }
                None => drop(answers.insert(question, answer)),
            }
        }
    }
    reached.check(&[("asked again", 1_500), ("an edit", 300)]);
}

/// The rows of a table that a reader sees.
fn seen(rows: &[NewRow], reader: Reader) -> Vec<(Flags, Vec<u8>)> {
    let seen = rows.iter().filter(|row| row.readers.has(reader));
    seen.map(|row| (row.flags, row.name.clone())).collect()
}

/// Two tables that one reader sees alike: both pass, they differ in many ways, and that reader's LIST,
/// LSUB and walk are the same in the second program.
#[test]
fn tables_that_are_seen_alike() {
    let mut reached = Reached::default();
    for seed in 0..TABLES {
        let mut random = Random::of("seen alike", seed);
        let count = random.within(1..=18);
        let mut rows = subscriptions(&mut random, count);
        let reader = veil(&mut random, &mut rows);
        let other = seen_alike(&mut random, &rows, reader);
        assert_eq!(seen(&rows, reader), seen(&other, reader), "seed {seed}");
        let layouts = [&rows, &other].map(|rows| laid_out(&mut random, rows));
        let tables = layouts.each_ref().map(|layout| Table::Records(layout.as_records()));
        assert!(tables.iter().all(|table| check_table(*table)), "seed {seed}");
        for line in [
            "a LIST \"\" * RETURN (CHILDREN SUBSCRIBED SPECIAL-USE)\r\n",
            "a LIST (REMOTE) \"\" %\r\n",
            "a LIST (SUBSCRIBED RECURSIVEMATCH) \"\" %\r\n",
            "a LIST (RECURSIVEMATCH SPECIAL-USE REMOTE) \"\" (% %/%)\r\n",
            "a LSUB \"\" %\r\n",
        ] {
            let [one, other] = tables.map(|table| {
                let mut out = vec![0; ROOM];
                let line = line.as_bytes();
                (answer_reading(reader.number(), table, b"", line, &mut out), out)
            });
            assert!(one == other, "seed {seed}, {line}");
        }
        for option in [0, 1, 3, 7] {
            let [one, other] = tables.map(|table| {
                let mut lent = [(); 3].map(|()| vec![0; ROOM]);
                let [scratch, found, pending] = &mut lent;
                (collect(reader.number(), table, option, scratch, found, pending), lent)
            });
            assert!(one == other, "seed {seed}, option {option}");
        }
        reached.add_held(kinds_of(&rows, &other, reader));
    }
    reached.check(&[
        ("more rows", 800),
        ("fewer rows", 500),
        ("nothing is seen", 100),
        ("all is seen", 50),
        ("other sets of what is seen", 1_500),
        ("other flags of what is hidden", 800),
        ("a hidden row above what is seen", 800),
        ("a hidden row with no inferiors", 300),
        ("a hidden subscription", 1_000),
    ]);
}

fn kinds_of(rows: &[NewRow], other: &[NewRow], reader: Reader) -> Vec<(&'static str, bool)> {
    let of = |name: &[u8]| other.iter().find(|row| row.name == name);
    let differs = |is_meant: &dyn Fn(&NewRow, &NewRow) -> bool| {
        rows.iter().any(|row| of(&row.name).is_some_and(|one| is_meant(row, one)))
    };
    let hidden: Vec<&NewRow> = other.iter().filter(|row| !row.readers.has(reader)).collect();
    let above: BTreeSet<Vec<u8>> = seen(rows, reader)
        .iter()
        .flat_map(|(_, name)| name::ancestors(name).map(<[u8]>::to_vec).collect::<Vec<_>>())
        .collect();
    let has = |flag: Flags| hidden.iter().any(|row| row.flags.has(flag));
    vec![
        ("more rows", other.len() > rows.len()),
        ("fewer rows", other.len() < rows.len()),
        ("nothing is seen", seen(rows, reader).is_empty()),
        ("all is seen", seen(rows, reader).len() == rows.len()),
        (
            "other sets of what is seen",
            differs(&|row, one| row.readers.has(reader) && row.readers != one.readers),
        ),
        ("other flags of what is hidden", differs(&|row, one| row.flags != one.flags)),
        ("a hidden row above what is seen", hidden.iter().any(|row| above.contains(&row.name))),
        ("a hidden row with no inferiors", has(Flags::NO_INFERIORS)),
        ("a hidden subscription", has(Flags::SUBSCRIBED)),
    ]
}

/// Names of rows that nobody sees are names to the generators of commands all the same.
#[test]
fn names_of_hidden_rows() {
    let row = NewRow { flags: Flags::EXISTS, readers: Readers::NONE, name: b"a/b".to_vec() };
    assert_eq!(names_of(&[row]), [b"a".to_vec(), b"a/b".to_vec()]);
}
