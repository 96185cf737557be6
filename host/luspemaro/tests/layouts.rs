//! The structs that pass between Rust and the archive, against the numbers of `host/c/layouts.def`,
//! which the tests of the C header read too.

// The archive is linked through the library. The structs are private to it, so their source is read
// here again.
use luspemaro as _;

#[allow(dead_code)]
#[path = "../src/raw.rs"]
mod raw;
#[allow(dead_code)]
#[path = "../src/raw_replay.rs"]
mod raw_replay;
#[allow(dead_code)]
#[path = "../src/refusal.rs"]
mod refusal;
#[allow(dead_code)]
#[path = "../src/summary.rs"]
mod summary;
#[allow(dead_code)]
#[path = "../src/walk_refusal.rs"]
mod walk_refusal;

use std::mem::{align_of, offset_of, size_of};

use raw::{FedChunk, FeederState, LineParts, Outcome, Record};
use raw_replay::{FedPiece, ReplayReport, ReplayState};
use summary::Summary;

const LAYOUTS: &str = include_str!("../../c/layouts.def");

/// A line of the file: `MEMBER(type, member, place)`, or `STRUCT(type, size)` without a member.
type Layout<'a> = (&'a str, Option<&'a str>, usize);

fn parse(line: &str) -> Option<Layout<'_>> {
    let (macro_name, arguments) = line.strip_suffix(')')?.split_once('(')?;
    let words: Vec<&str> = arguments.split(", ").collect();
    match (macro_name, words.as_slice()) {
        ("MEMBER", &[name, member, place]) => Some((name, Some(member), place.parse().ok()?)),
        ("STRUCT", &[name, size]) => Some((name, None, size.parse().ok()?)),
        _ => None,
    }
}

#[test]
fn layouts_are_those_of_the_header() {
    let in_rust = [
        ("luspemaro_record", Some("flags"), offset_of!(Record, flags)),
        ("luspemaro_record", Some("start"), offset_of!(Record, start)),
        ("luspemaro_record", Some("len"), offset_of!(Record, len)),
        ("luspemaro_record", Some("readers"), offset_of!(Record, readers)),
        ("luspemaro_record", None, size_of::<Record>()),
        ("luspemaro_outcome", Some("number"), offset_of!(Outcome, number)),
        ("luspemaro_outcome", Some("changed"), offset_of!(Outcome, changed)),
        ("luspemaro_outcome", Some("length"), offset_of!(Outcome, length)),
        ("luspemaro_outcome", Some("count"), offset_of!(Outcome, count)),
        ("luspemaro_outcome", None, size_of::<Outcome>()),
        ("luspemaro_line", Some("number"), offset_of!(LineParts, number)),
        ("luspemaro_line", Some("criteria"), offset_of!(LineParts, criteria)),
        ("luspemaro_line", Some("attributes"), offset_of!(LineParts, attributes)),
        ("luspemaro_line", Some("length"), offset_of!(LineParts, length)),
        ("luspemaro_line", Some("name"), offset_of!(LineParts, name)),
        ("luspemaro_line", None, size_of::<LineParts>()),
        ("luspemaro_feeder", Some("place"), offset_of!(FeederState, place)),
        ("luspemaro_feeder", Some("cr"), offset_of!(FeederState, cr)),
        ("luspemaro_feeder", Some("value"), offset_of!(FeederState, value)),
        ("luspemaro_feeder", Some("size"), offset_of!(FeederState, size)),
        ("luspemaro_feeder", None, size_of::<FeederState>()),
        ("luspemaro_fed", Some("event"), offset_of!(FedChunk, event)),
        ("luspemaro_fed", Some("number"), offset_of!(FedChunk, number)),
        ("luspemaro_fed", Some("length"), offset_of!(FedChunk, length)),
        ("luspemaro_fed", Some("used"), offset_of!(FedChunk, used)),
        ("luspemaro_fed", Some("state"), offset_of!(FedChunk, state)),
        ("luspemaro_fed", None, size_of::<FedChunk>()),
        ("luspemaro_replayed", Some("number"), offset_of!(ReplayReport, number)),
        ("luspemaro_replayed", Some("frame"), offset_of!(ReplayReport, frame)),
        ("luspemaro_replayed", Some("count"), offset_of!(ReplayReport, count)),
        ("luspemaro_replayed", None, size_of::<ReplayReport>()),
        ("luspemaro_replay", Some("frames"), offset_of!(ReplayState, frames)),
        ("luspemaro_replay", Some("first"), offset_of!(ReplayState, first)),
        ("luspemaro_replay", Some("due"), offset_of!(ReplayState, due)),
        ("luspemaro_replay", Some("gathered"), offset_of!(ReplayState, gathered)),
        ("luspemaro_replay", Some("stopped"), offset_of!(ReplayState, stopped)),
        ("luspemaro_replay", None, size_of::<ReplayState>()),
        ("luspemaro_replay_fed", Some("taken"), offset_of!(FedPiece, taken)),
        ("luspemaro_replay_fed", Some("number"), offset_of!(FedPiece, number)),
        ("luspemaro_replay_fed", Some("frame"), offset_of!(FedPiece, frame)),
        ("luspemaro_replay_fed", Some("count"), offset_of!(FedPiece, count)),
        ("luspemaro_replay_fed", Some("state"), offset_of!(FedPiece, state)),
        ("luspemaro_replay_fed", None, size_of::<FedPiece>()),
    ];
    assert_eq!(
        (size_of::<Summary>(), align_of::<Summary>()),
        (size_of::<u64>(), align_of::<u64>())
    );
    let in_file: Vec<Layout> = LAYOUTS.lines().filter_map(parse).collect();
    assert_eq!(in_file, in_rust);
}
