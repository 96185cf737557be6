//! The feeder, and the continuation line that it asks for.

use std::ops::Range;

use luspemaro::{feed, put_go_on, Fed, FeederState, Happening, COMMAND_ROOM};
use second::feeder::CONTINUATION;
use second::{Event, Feeder};

use super::tally::{shown, Tally, Text, SEED};
use crate::random::Random;
use crate::streams::stream_of;

const STREAMS: Range<u64> = 0..20_000;
const NOT_TAKEN: usize = 20_000;
/// Numbers that a place has.
const PLACES: u8 = 8;
const FILL: u8 = b'.';

/// Each chunk: what comes of it, the command's bytes so far or how bytes are dropped, and whether
/// the state is the first one.
pub fn streams(tally: &mut Tally) {
    for seed in STREAMS {
        let (mut proved, mut second) = (luspemaro::Feeder::default(), Feeder::default());
        for (at, chunk) in stream_of(seed).iter().enumerate() {
            let call = || format!("stream {seed}, chunk {}: {}", at + 1, shown(chunk));
            let given = [
                (proved_events(proved.feed(chunk)), proved.kept(), proved.is_first()),
                (second_events(second.feed(chunk)), kept(&second), second == Feeder::default()),
            ];
            tally.same(call, given);
        }
    }
}

/// Too little lent memory, or a state with more bytes than a command has: no byte is taken, and
/// none changes. Any number but 0 says that the last byte is CR, and is given back as 1. What is
/// expected stands in the second program's place.
pub fn not_taken(tally: &mut Tally) {
    let mut random = Random::of("library: memory not taken", SEED);
    for _ in 0..NOT_TAKEN {
        let (room, size) = if random.percent(50) {
            (random.below(COMMAND_ROOM), random.below(2 * COMMAND_ROOM))
        } else {
            (COMMAND_ROOM + random.below(9), COMMAND_ROOM + 1 + random.below(COMMAND_ROOM))
        };
        let place = random.byte() % PLACES;
        let state = FeederState { place, cr: random.byte(), value: 0, size };
        let chunk = [random.byte(), b'\r', b'\n'];
        let mut command = vec![FILL; room];
        let fed = feed(state, &mut command, &chunk);
        let back = FeederState { cr: u8::from(state.cr != 0), ..state };
        let expected = Fed { happening: Happening::NotTaken, used: 0, state: back };
        let call = || format!("feed: {state:?}, room {room}");
        tally.same(call, [(fed, Text(command)), (expected, Text(vec![FILL; room]))]);
    }
}

/// As far as the buffer goes, and a place behind it all the same.
pub fn continuation(tally: &mut Tally) {
    for room in 0..=2 * CONTINUATION.len() {
        for at in (0..=room + 1).chain([usize::MAX - 6, usize::MAX - 5, usize::MAX]) {
            let mut out = vec![FILL; room];
            let behind = put_go_on(&mut out, at);
            let mut expected = vec![FILL; room];
            let places = expected.iter_mut().skip(at);
            places.zip(CONTINUATION).for_each(|(place, &byte)| *place = byte);
            let given = [(behind, out), (at.saturating_add(CONTINUATION.len()), expected)];
            let call = || format!("put_go_on: room {room}, at {at}");
            tally.same(call, given.map(|(behind, out)| (behind, Text(out))));
        }
    }
}

/// An event in one form for both libraries: the command, or the number of the refusal, or none for
/// the continuation line.
type Told = Option<Result<Vec<u8>, u8>>;

fn proved_events(events: Vec<luspemaro::Event>) -> Vec<Told> {
    let told = |event| match event {
        luspemaro::Event::Command(command) => Some(Ok(command)),
        luspemaro::Event::Refused(refusal) => Some(Err(refusal.number())),
        luspemaro::Event::GoOn => None,
    };
    events.into_iter().map(told).collect()
}

fn second_events(events: Vec<Event>) -> Vec<Told> {
    let told = |event| match event {
        Event::Command(command) => Some(Ok(command)),
        Event::Refused(refusal) => Some(Err(refusal.number())),
        Event::GoOn => None,
    };
    events.into_iter().map(told).collect()
}

/// The command's bytes so far; or, where bytes are dropped, whether the last one is CR.
fn kept(feeder: &Feeder) -> Result<&[u8], bool> {
    match feeder {
        Feeder::Reading(command) => Ok(command),
        Feeder::Dropping { after_cr } => Err(*after_cr),
    }
}
