//! What the generator of nights reaches (document 02, W14).

use compare::log_frames::{
    bad_frames, frames_of_many_lengths, longest_frames, some_pieces, with_lf,
};
use compare::random::Random;
use compare::records::Layout;
use compare::replays::{nights_at_the_buffer, small_night, some_night, Night};
use formats::frames::MAX_DIGITS;
use formats::rows::MAX_ROWS;
use second::frames::ANSWER_ROOM;
use second::replay::{replay, Exchange, LogFrame, Recorded, Stop, Turns, Verdict};
use second::{answer, check_table, Table};

use crate::reached::Reached;

const SEEDS: u64 = 4_000;

/// The exchanges of a log up to where it stops, and that stop.
fn exchanges(log: &[u8]) -> (Vec<Exchange>, Option<Stop>) {
    let (mut turns, mut exchanges) = (Turns::default(), Vec::new());
    for frame in log.split_inclusive(|&byte| byte == b'\n') {
        let taken = match frame.strip_suffix(b"\n") {
            Some(text) => turns.take(text),
            None => Err(turns.cut()),
        };
        match taken {
            Ok(exchange) => exchanges.extend(exchange),
            Err(stop) => return (exchanges, Some(stop)),
        }
    }
    let stop = turns.end().err();
    (exchanges, stop)
}

/// What a night reaches: its verdict, and what its table and its log have.
fn reach(night: &Night, reached: &mut Reached) {
    let (exchanges, stop) = exchanges(&night.log);
    let (mut table, mut again) = (night.table.clone(), night.table.clone());
    let verdict = table.lend(|lent| replay(lent, &night.namespaces, &night.log));
    reached.add(match verdict {
        Verdict::Agree => "agrees",
        Verdict::Differs(1) => "differs at the first command",
        Verdict::Differs(_) => "differs later",
        Verdict::Stopped(Stop { rule, .. }) => rule,
    });
    let mut differing = 0;
    for one in &exchanges {
        let now = again.lend(|lent| one.answered_now(lent, &night.namespaces));
        differing += usize::from(now != one.recorded);
    }
    assert_eq!(again, table);
    let passes = check_table(Table::Records(night.table.as_records()));
    let is_empty = |one: &Exchange| one.recorded == Recorded::Lines(Vec::new());
    reached.add_held(vec![
        ("a table that does not pass", !passes),
        ("a full table", passes && night.table.count == MAX_ROWS),
        ("no byte free", !night.table.area.contains(&0) && night.table.count > 0),
        ("another table at the end", table != night.table),
        ("a reader above 7", exchanges.iter().any(|one| one.reader > 7)),
        ("several differences", stop.is_none() && differing > 1),
        ("a difference before a stop", stop.is_some() && differing > 0),
        ("41 without bytes", exchanges.iter().any(is_empty)),
        ("a count above the records", night.table.count > night.table.records.len()),
        ("a table whose summary alone is wrong", !passes && recounted_passes(&night.table)),
        ("43 of 4,102 digits", exchanges.iter().any(|one| one.line.len() == MAX_DIGITS / 2 - 2)),
        ("digits of both cases", is_mixed(&night.log)),
    ]);
}

/// Whether a table passes once its summary is counted afresh.
fn recounted_passes(table: &Layout) -> bool {
    let mut counted = table.clone();
    counted.recount();
    check_table(Table::Records(counted.as_records()))
}

fn is_mixed(log: &[u8]) -> bool {
    let has = |case: fn(&u8) -> bool| log.iter().any(case);
    has(u8::is_ascii_uppercase) && has(u8::is_ascii_lowercase)
}

const LEAST: [(&str, usize); 27] = [
    ("agrees", 700),
    ("differs at the first command", 100),
    ("differs later", 250),
    ("the last frame of a log ends with LF too", 250),
    ("a 43 is followed by its 41 or 52, and not by another 43", 100),
    ("a 41 or 52 follows the 43 that it answers", 100),
    ("a log does not end after a 43", 10),
    ("a frame of 41 has at most 32,770 digits in a log", 10),
    ("a frame other than 41 has at most 4,102 digits", 30),
    ("a frame holds hexadecimal digits alone", 100),
    ("a frame has an even number of digits", 100),
    ("43 is followed by the byte of the reader", 10),
    ("52 is followed by one byte", 30),
    ("a frame is not empty", 15),
    ("the first byte of a frame of a log is 43, 41 or 52", 60),
    ("a table that does not pass", 100),
    ("a full table", 100),
    ("no byte free", 50),
    ("another table at the end", 1_500),
    ("a reader above 7", 500),
    ("several differences", 200),
    ("a difference before a stop", 300),
    ("41 without bytes", 50),
    ("a count above the records", 40),
    ("a table whose summary alone is wrong", 60),
    ("43 of 4,102 digits", 100),
    ("digits of both cases", 200),
];

#[test]
fn what_nights_reach() {
    let mut reached = Reached::default();
    for seed in 0..SEEDS {
        reach(&some_night(&mut Random::of("library: replays", seed)), &mut reached);
    }
    reached.check(&LEAST);
}

/// Each of them is unreadable wherever it stands, and has a name of its own.
#[test]
fn bad_frames_are_bad() {
    let mut names: Vec<&str> = bad_frames().iter().map(|(name, _)| *name).collect();
    for (name, frame) in bad_frames() {
        assert!(LogFrame::decode(&frame).is_err(), "{name}");
    }
    names.sort_unstable();
    names.dedup();
    assert_eq!(names.len(), bad_frames().len());
    assert!(longest_frames().iter().all(|(_, frame)| LogFrame::decode(frame).is_ok()));
    let (bad, good): (Vec<_>, Vec<_>) =
        frames_of_many_lengths().into_iter().partition(|frame| LogFrame::decode(frame).is_err());
    let longest =
        |first: &[u8]| good.iter().filter(|one| one.starts_with(first)).map(Vec::len).max();
    assert_eq!(
        [longest(b"43"), longest(b"41"), longest(b"52")],
        [Some(4_102), Some(32_770), Some(4)]
    );
    assert!(bad.iter().any(|frame| frame.len() == 32_771 && frame.starts_with(b"41")));
}

#[test]
fn a_small_night_agrees() {
    let (night, frames) = small_night();
    assert_eq!(with_lf(&frames), night.log);
    let mut table = night.table.clone();
    assert_eq!(table.lend(|lent| replay(lent, b"", &night.log)), Verdict::Agree);
    assert_ne!(table, night.table);
    let mut out = [0; ANSWER_ROOM];
    let refused = |line: &[u8], out: &mut [u8]| {
        night.table.clone().lend(|lent| answer(0, lent, b"", line, out)).is_err()
    };
    assert!(!refused(b"a SUBSCRIBE Foo\r\n", &mut out) && refused(b"", &mut out));
}

/// The answers have a byte fewer than the buffer, as many, and a byte more, which is 9.
#[test]
fn nights_at_the_buffer_are_so() {
    let lengths = nights_at_the_buffer().map(|night| {
        let (exchanges, stop) = exchanges(&night.log);
        assert_eq!(stop, None);
        exchanges[0].recorded.clone()
    });
    let [fewer, most, more] = lengths;
    let length = |recorded: &Recorded| match recorded {
        Recorded::Lines(lines) => lines.len(),
        Recorded::Refused(number) => usize::from(*number),
    };
    assert_eq!([&fewer, &most, &more].map(length), [ANSWER_ROOM - 1, ANSWER_ROOM, 9]);
}

#[test]
fn pieces_are_the_log() {
    let log: Vec<u8> = (0..=255).cycle().take(9_000).collect();
    let mut lengths = Vec::new();
    for seed in 0..200 {
        let mut random = Random::of("pieces", seed);
        let pieces = some_pieces(&mut random, &log);
        assert_eq!(pieces.concat(), log);
        lengths.extend(pieces.iter().map(|piece| piece.len()));
    }
    assert!(lengths.contains(&0) && lengths.contains(&1) && lengths.iter().any(|&one| one > 3_000));
}
