//! What the sessions with edits reach (document 02, W6), and the free runs of an area.

use compare::edits::free_runs;
use formats::frames::Frame;
use second::frames::{Answer, Program};
use second::{Record, Store};

use crate::reached::check_often;

/// What comes of a frame: a refusal, by its number, or what an edit does.
fn what_of(program: &mut Program, frame: &[u8]) -> Vec<String> {
    let before = program.records().map(|store| store.into_owned()).ok();
    let is_row = matches!(Frame::decode(frame), Ok(Frame::Row(_)));
    let what = match program.answer(frame) {
        Some(Answer::Refused(refusal)) if is_row => {
            format!("a row refused with {}", refusal.number())
        }
        Some(Answer::Refused(refusal)) => refusal.number().to_string(),
        Some(Answer::Walked { .. }) => "a walk".to_string(),
        Some(Answer::Lines(lines)) if lines.starts_with(b"* ") => "lines".to_string(),
        Some(Answer::Lines(_)) => change(before.as_ref(), program.store.as_ref()).to_string(),
        None if program.store.is_some() => "kept after an edit".to_string(),
        None => "kept".to_string(),
    };
    vec![what]
}

/// What a command that lists nothing has changed.
fn change(before: Option<&Store>, after: Option<&Store>) -> &'static str {
    match (before, after) {
        (Some(before), Some(after)) if before.count < after.count => {
            let tail = before.records[..before.count].iter().map(|record| record.place().end);
            let starts = after.records[..after.count].iter().map(|record| record.start);
            let new = starts.max().map_or(0, usize::from);
            if Some(new) == tail.max() {
                "inserted at the end"
            } else {
                "inserted"
            }
        }
        (Some(before), Some(after)) if before.count > after.count => "removed",
        (Some(before), Some(after)) if before != after => "flag changed",
        _ => "nothing changed",
    }
}

#[test]
fn what_the_sessions_reach() {
    let often = |kind: &str, least: &[(&str, usize)]| check_often(kind, least, what_of);
    often(
        "series of edits",
        &[
            ("inserted", 20),
            ("inserted at the end", 50),
            ("removed", 50),
            ("flag changed", 50),
            ("nothing changed", 100),
            ("14", 50),
            ("4", 10),
            ("lines", 100),
            ("a walk", 100),
        ],
    );
    often("edits of full tables", &[("15", 50), ("inserted", 20), ("removed", 50), ("14", 20)]);
    often(
        "edits of names in pieces",
        &[("15", 100), ("inserted", 300), ("removed", 100), ("a row refused with 13", 40)],
    );
    often(
        "rows and entries around edits",
        &[
            ("a row refused with 13", 20),
            ("kept", 50),
            ("kept after an edit", 10),
            ("1", 10),
            ("2", 5),
            ("4", 5),
            ("14", 20),
        ],
    );
    let refusals = ["1", "2", "3", "4", "5", "14", "15"].map(|number| (number, 20));
    often("refusals of edits", &refusals);
    often(
        "edits of every reader",
        &[
            ("16", 200),
            ("14", 30),
            ("4", 5),
            ("inserted at the end", 30),
            ("removed", 20),
            ("flag changed", 30),
            ("nothing changed", 50),
            ("lines", 200),
            ("a walk", 50),
        ],
    );
}

#[test]
fn free_runs_of_areas() {
    let record = |start, len| Record { flags: 1, start, len, readers: 0 };
    let store = |records: &[Record], area: &[u8]| {
        Store::counted(records.to_vec(), records.len(), area.to_vec())
    };
    assert_eq!(free_runs(&store(&[], b"")), []);
    assert_eq!(free_runs(&store(&[], b"ab")).first(), Some(&(0..2)));
    assert_eq!(free_runs(&store(&[record(3, 2), record(0, 1)], b"a..bc..")), [1..3, 5..7]);
    assert_eq!(free_runs(&store(&[record(0, 2), record(2, 1)], b"abc")), []);
    let spare = Store { count: 1, ..store(&[record(0, 1), record(1, 1)], b"ab") };
    assert_eq!(free_runs(&spare).first(), Some(&(1..2)));
}
