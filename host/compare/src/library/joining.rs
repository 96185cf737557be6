//! The line of a joined command: written by both libraries, every byte of the buffer compared; and then
//! answered by both.

use luspemaro::{Event, Feeder, ListOptions};

use super::answers::answer_both;
use super::both::{Asked, Mailboxes, JOIN, JOIN_PACKED, SECOND};
use super::tally::{shown, Tally, Text};
use crate::join_parts::{damaged_list, met, needed, Parts};
use crate::lsub::subscriptions;
use crate::random::Random;
use crate::records::laid_out;
use crate::tables::names_of;

/// More than any line.
pub const ROOM: usize = 2_100;
/// More than any answer here.
const ANSWER_ROOM: usize = 16_384;
/// The most rows of a table, and the parts that are about its names.
const FEW: usize = 12;
const PARTS_A_TABLE: usize = 8;
const FILL: u8 = b'.';

/// Random parts, of which some are damaged, as patterns one by one and as a list, which may be damaged too.
/// What is written is answered over a table, and handed over whole by a feeder.
pub fn parts(tally: &mut Tally) {
    tally.for_each_seed(|tally, seed| {
        let mut random = Random::of("library: joined commands", seed);
        let count = random.within(1..=FEW);
        let rows = subscriptions(&mut random, count);
        let names = names_of(&rows);
        let mut table = Mailboxes::new(laid_out(&mut random, &rows));
        for _ in 0..PARTS_A_TABLE {
            let mut parts = Parts::lawful(&mut random, &names);
            if random.percent(60) {
                parts.damage(&mut random);
            }
            let line = join_in_rooms(tally, &parts);
            if let Some(list) = parts.list().filter(|_| random.percent(20)) {
                let list = damaged_list(&mut random, list);
                for room in [0, ROOM] {
                    join_list(tally, &parts, &list, room);
                }
            }
            if let Some(line) = line {
                check_taken(tally, &mut table, &line);
            }
        }
    });
    tally.need(needed);
}

/// Writes parts in a buffer with room enough, and in buffers on both sides of the line's length; and gives the
/// line, if there is one.
pub fn join_in_rooms(tally: &mut Tally, parts: &Parts) -> Option<Vec<u8>> {
    let line = join_both(tally, parts, ROOM);
    let need = line.as_ref().map_or(0, Vec::len);
    for room in [0, need.saturating_sub(1), need, need + 1] {
        join_both(tally, parts, room);
    }
    line
}

/// By both libraries from a list, if the patterns have one, and from patterns one by one, if the options are a
/// set; and gives the line, if there is one.
fn join_both(tally: &mut Tally, parts: &Parts, room: usize) -> Option<Vec<u8>> {
    let Parts { tag, options, reference, .. } = parts;
    let of_list = parts.list().and_then(|list| join_list(tally, parts, &list, room));
    let Some(options) = ListOptions::from_bits(*options) else {
        return of_list;
    };
    let given =
        JOIN.map(|join| written(room, |out| join(tag, options, reference, &parts.slices(), out)));
    same(tally, || format!("join: {}, room {room}", text_of(parts)), given)
}

/// By both libraries from a list, which may have any bytes; and gives the line, if there is one.
pub fn join_list(tally: &mut Tally, parts: &Parts, list: &[u8], room: usize) -> Option<Vec<u8>> {
    let Parts { tag, options, reference, .. } = parts;
    let given =
        JOIN_PACKED.map(|join| written(room, |out| join(tag, *options, reference, list, out)));
    let call = || format!("join_packed: {}, list {}, room {room}", text_of(parts), shown(list));
    same(tally, call, given)
}

/// The line or the number, and the whole buffer.
type Written = (Result<Vec<u8>, u8>, Text);

fn written(room: usize, join: impl FnOnce(&mut [u8]) -> Result<usize, u8>) -> Written {
    let mut out = vec![FILL; room];
    let result = join(&mut out);
    (result.map(|length| out[..length].to_vec()), Text(out))
}

/// Compares what was written, counts what was met, and gives the second program's line.
fn same(tally: &mut Tally, call: impl FnOnce() -> String, given: [Written; 2]) -> Option<Vec<u8>> {
    let (result, _) = &given[SECOND];
    tally.reached.add_all(&met(result));
    let line = result.clone().ok();
    tally.same(call, given.map(|(result, out)| (result.map(|line| line.len()), out)));
    line
}

/// A line that was written is refused with none of 3 to 8, nor with another number where there is room; both
/// libraries answer it alike; and a feeder hands it over whole.
pub fn check_taken(tally: &mut Tally, table: &mut Mailboxes, line: &[u8]) {
    let length = answer_both(tally, table, Asked::by_0(line), ANSWER_ROOM);
    let call = || format!("a joined line is answered: {}", shown(line));
    tally.same_of(call, ["answered", "expected"], [length > 0, true]);
    let events = Feeder::default().feed(line);
    let call = || format!("a joined line is handed over: {}", shown(line));
    let whole = Event::Command(line.to_vec());
    tally.same_of(call, ["fed", "expected"], [events.last(), Some(&whole)]);
}

fn text_of(parts: &Parts) -> String {
    let Parts { tag, options, reference, patterns } = parts;
    let patterns: Vec<String> = patterns.iter().map(|pattern| shown(pattern)).collect();
    let patterns = patterns.join(", ");
    format!(
        "tag {}, options {options:#04x}, reference {}, patterns {patterns}",
        shown(tag),
        shown(reference)
    )
}
