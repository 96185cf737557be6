//! The collector.

use second::collector::WALK_REFUSALS;

use super::both::{Lent, COLLECT, PROVED, SECOND};
use super::tally::{Tally, Text, SEED};
use crate::damage::damaged_table;
use crate::random::Random;
use crate::tables::{good_table, table_bytes};

const TABLES: usize = 6_000;
/// Every option byte up to one above the lawful ones.
pub const OPTIONS: u8 = 9;
/// More than a walk over few rows needs.
const ROOM: usize = 8_192;
const FILL: u8 = b'.';

/// The lengths of the three lent buffers.
#[derive(Clone, Copy, Debug)]
pub struct Rooms {
    pub scratch: usize,
    pub found: usize,
    pub pending: usize,
}

impl Rooms {
    /// More than any walk here needs.
    pub const AMPLE: Rooms = Rooms { scratch: ROOM, found: ROOM, pending: ROOM };

    /// Found and pending as long as they have to be, or a byte shorter, and any scratch.
    pub fn near(self, random: &mut Random) -> Rooms {
        Rooms {
            scratch: if random.percent(60) { ROOM } else { random.below(1_000) },
            found: near(random, self.found),
            pending: near(random, self.pending),
        }
    }
}

pub fn walks(tally: &mut Tally) {
    let mut random = Random::of("library: walks", SEED);
    for _ in 0..TABLES {
        let count = random.below(20);
        let rows = good_table(&mut random, count);
        let bad = random.percent(5);
        let table = if bad { damaged_table(&mut random, rows) } else { table_bytes(&rows) };
        let table = [Lent::Packed(&table); 2];
        for option in 0..OPTIONS {
            let need = collect_both(tally, 0, table, option, Rooms::AMPLE);
            for _ in 0..3 {
                collect_both(tally, 0, table, option, need.near(&mut random));
            }
        }
    }
}

/// Mostly what is needed, or one less.
fn near(random: &mut Random, need: usize) -> usize {
    match random.below(10) {
        0..6 => need,
        6..9 => need.saturating_sub(1),
        _ => random.below(need + 2),
    }
}

/// Walks of a reader by both libraries, each over its form of the table, and gives what found and
/// pending need. A walk that is refused gives one of six numbers (document 02, W12).
pub fn collect_both(
    tally: &mut Tally,
    reader: u8,
    tables: [Lent; 2],
    option: u8,
    rooms: Rooms,
) -> Rooms {
    let given = [PROVED, SECOND].map(|who| {
        let [mut scratch, mut found, mut pending] =
            [rooms.scratch, rooms.found, rooms.pending].map(|room| vec![FILL; room]);
        let result =
            COLLECT[who](reader, tables[who], option, &mut scratch, &mut found, &mut pending);
        let numbers = WALK_REFUSALS.map(second::Refusal::number);
        let is_one_of_six = result.err().is_none_or(|number| numbers.contains(&number));
        assert!(is_one_of_six || who == PROVED, "the second program refuses with {result:?}");
        (result, is_one_of_six, Text(scratch), Text(found), Text(pending))
    });
    let (result, .., pending) = &given[SECOND];
    let need = Rooms {
        scratch: rooms.scratch,
        found: result.map_or(0, |(_, length)| length),
        pending: names_length(&pending.0),
    };
    let call = || {
        format!("collect: reader {reader}, option {option}, {rooms:?}, table\n{}", tables[PROVED])
    };
    tally.same(call, given);
    need
}

/// The bytes of the names at the front, each with a length byte, up to the first 0.
fn names_length(bytes: &[u8]) -> usize {
    let mut at = 0;
    while let Some(&length) = bytes.get(at).filter(|&&length| length != 0) {
        at += 1 + usize::from(length);
    }
    at
}
