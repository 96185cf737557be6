//! What the archive does not take: lent memory that is too short, and states that are invalid.

use crate::raw::{Record, RecordsMut};
use crate::raw_replay::{replay_feed, FedPiece, ReplayState};
use crate::replay::{Replay, Replayed, Verdict, LINE_ROOM, PENDING_ROOM};
use crate::summary::Summary;

const FILL: u8 = 0xA5;
const COUNT: usize = 7;
/// Both frames of a SUBSCRIBE that is accepted, with nothing to gather before them.
const LOG: &[u8] = b"4300612053554253435249424520466F6F0D0A\n4161204F4B20646F6E650D0A\n";

/// The memory that is lent beside a piece.
#[derive(Clone, Debug, PartialEq, Eq)]
struct Memory {
    record: Record,
    area: [u8; 3],
    summary: Summary,
    pending: Vec<u8>,
    line: Vec<u8>,
}

impl Memory {
    fn new(pending: usize, line: usize) -> Memory {
        let record = Record::default();
        let (pending, line) = (vec![FILL; pending], vec![FILL; line]);
        Memory { record, area: [FILL; 3], summary: Summary(9), pending, line }
    }

    /// A piece over an empty table with one spare record; its count is any.
    fn feed(&mut self, state: ReplayState, count: usize, piece: &[u8]) -> FedPiece {
        let Memory { record, area, summary, pending, line } = self;
        let (records, summary) = (std::slice::from_mut(record), std::slice::from_mut(summary));
        let table = RecordsMut { records, count, area, summary };
        replay_feed(table, state, b"", pending, line, piece)
    }
}

/// Whether the archive takes a piece. Where it does not, everything is as it was.
fn takes(state: ReplayState, [pending, line]: [usize; 2], piece: &[u8]) -> bool {
    let before = Memory::new(pending, line);
    let mut memory = before.clone();
    let fed = memory.feed(state, COUNT, piece);
    let is_taken = fed.taken(COUNT, state);
    assert!(is_taken || memory == before, "{state:?}");
    is_taken
}

const ROOMS: [usize; 2] = [PENDING_ROOM, LINE_ROOM];

#[test]
fn memory_that_is_too_short() {
    for (rooms, is_taken) in [
        (ROOMS, true),
        ([PENDING_ROOM + 9, LINE_ROOM + 9], true),
        ([PENDING_ROOM - 1, LINE_ROOM], false),
        ([PENDING_ROOM, LINE_ROOM - 1], false),
        ([0, LINE_ROOM], false),
        ([PENDING_ROOM, 0], false),
        ([0, 0], false),
    ] {
        for piece in [b"".as_slice(), b"4", LOG] {
            assert_eq!(takes(ReplayState::default(), rooms, piece), is_taken, "{rooms:?}");
        }
    }
}

#[test]
fn states_that_are_invalid() {
    let state = |frames, due, gathered| ReplayState { frames, first: 3, due, gathered, stopped: 0 };
    for (state, is_taken) in [
        (state(1, PENDING_ROOM, 0), true),
        (state(1, PENDING_ROOM + 1, 0), false),
        (state(1, usize::MAX, 0), false),
        (state(0, 0, 0), true),
        (state(0, 1, 0), false),
        (state(0, PENDING_ROOM, 0), false),
        (state(0, 0, LINE_ROOM), true),
        (state(0, 0, LINE_ROOM + 1), false),
        (state(0, 0, usize::MAX), false),
        (state(usize::MAX - LOG.len() - 1, 0, 0), true),
        (state(usize::MAX - LOG.len(), 0, 0), false),
        (state(usize::MAX, 0, 0), false),
    ] {
        for stopped in [0, 1, 2, 255] {
            let state = ReplayState { stopped, ..state };
            assert_eq!(takes(state, ROOMS, LOG), is_taken, "{state:?}");
        }
    }
    // An empty piece ends no frame.
    assert!(takes(state(usize::MAX - 1, 0, 0), ROOMS, b""));
    assert!(!takes(state(usize::MAX, 0, 0), ROOMS, b""));
}

/// After a stop the state is given back, whatever is fed, and the report is that of the stop.
#[test]
fn a_stopped_state() {
    let state = ReplayState { frames: 5, first: 3, due: 0, gathered: 0, stopped: 2 };
    let before = Memory::new(PENDING_ROOM, LINE_ROOM);
    let mut memory = before.clone();
    let back = ReplayState { stopped: 1, ..state };
    for piece in [b"".as_slice(), b"\n", LOG] {
        let expected = FedPiece { taken: 1, number: 13, frame: 5, count: COUNT, state: back };
        assert_eq!(memory.feed(state, COUNT, piece), expected);
        assert_eq!(memory, before);
    }
}

/// The command whose answer is due lies at the front of pending, the frame so far at the front of line, and no byte
/// after the longest of either changes.
#[test]
fn what_lies_in_the_memory() {
    let mut memory = Memory::new(PENDING_ROOM + 1, LINE_ROOM + 1);
    let (mut state, mut count) = (ReplayState::default(), 0);
    for (at, byte) in LOG.iter().enumerate() {
        let fed = memory.feed(state, count, &[*byte]);
        assert!(fed.taken(count, state));
        (state, count) = (fed.state, fed.count);
        let read = &LOG[..=at];
        let frames = read.iter().filter(|&&byte| byte == b'\n').count();
        let frame = read.rsplit(|&byte| byte == b'\n').next().expect("a rest");
        let due: &[u8] = if frames == 1 { b"\0a SUBSCRIBE Foo\r\n" } else { b"" };
        let expected =
            ReplayState { frames, first: 0, due: due.len(), gathered: frame.len(), stopped: 0 };
        assert_eq!(state, expected);
        assert_eq!((&memory.pending[..due.len()], &memory.line[..frame.len()]), (due, frame));
    }
    assert_eq!((memory.pending[PENDING_ROOM], memory.line[LINE_ROOM]), (FILL, FILL));
    assert_eq!((count, &memory.area), (1, b"Foo"));
    assert_eq!((memory.record.len, memory.summary), (3, Summary(0)));
}

/// A replay with as many frames as a number counts takes nothing more, and keeps what it has.
#[test]
fn no_frame_more() {
    let mut replay = Replay::new();
    replay.state.frames = usize::MAX - 3;
    let mut feed = |piece: &[u8]| {
        let table = RecordsMut { records: &mut [], count: 0, area: &mut [], summary: &mut [] };
        (replay.feed(table, b"", piece), replay.frames())
    };
    assert_eq!(feed(b"430"), (None, usize::MAX - 3));
    let report = |verdict| Some(Replayed { verdict, count: 0 });
    assert_eq!(feed(b""), (report(Verdict::Agree), usize::MAX - 3));
    assert_eq!(feed(b"43"), (report(Verdict::Refused(usize::MAX - 2)), usize::MAX - 3));
    assert_eq!(feed(b"\n"), (report(Verdict::Refused(usize::MAX - 2)), usize::MAX - 2));
}

#[test]
#[should_panic(expected = "the number 12 and frame 1")]
fn another_number() {
    Verdict::of(12, 1);
}
