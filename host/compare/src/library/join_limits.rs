//! Joined commands at their limits: every number of options, every byte, lengths on both sides of each limit,
//! short lists of every kind, and several faults at a time.

use second::command::MAX_CANONICAL;
use second::literal::MAX_LITERAL;
use second::shape::MAX_LINE;

use super::both::Mailboxes;
use super::joining::{check_taken, join_in_rooms, join_list, ROOM};
use super::tally::{Tally, SEED};
use crate::join_parts::{needed, Parts};
use crate::lsub::subscriptions;
use crate::random::Random;
use crate::records::laid_out;

/// Rows of the table over which what is written is answered.
const FEW: usize = 6;
/// Bytes that short lists are made of: lengths that fit and that do not, and what patterns hold.
const LIST_BYTES: [u8; 7] = [0, 1, 2, 3, b'a', b'\r', 0xFF];
const LONGEST_LIST: u32 = 4;

pub fn limits(tally: &mut Tally) {
    let mut random = Random::of("library: joined commands at the limits", SEED);
    let rows = subscriptions(&mut random, FEW);
    let mut table = Mailboxes::new(laid_out(&mut random, &rows));
    let all = [every_byte(), literals(), lengths_of_lines(), canonical_lengths()];
    for parts in all.iter().flatten() {
        if let Some(line) = join_in_rooms(tally, parts) {
            check_taken(tally, &mut table, &line);
        }
    }
    faults(tally);
    short_lists(tally);
    tally.need(needed);
}

fn parts(tag: &[u8], options: u8, reference: &[u8], patterns: &[&[u8]]) -> Parts {
    let patterns = patterns.iter().map(|pattern| pattern.to_vec()).collect();
    Parts { tag: tag.to_vec(), options, reference: reference.to_vec(), patterns }
}

/// Each byte alone and among others, at each place.
fn every_byte() -> Vec<Parts> {
    let of_byte = |byte: u8| {
        let among = [b'a', byte, b'b'];
        [
            parts(&[byte], 0, b"", &[b"%"]),
            parts(&among, 1, b"", &[b"%"]),
            parts(b"a", 0, &[byte], &[b"%"]),
            parts(b"a", 0, &among, &[b"", b"%"]),
            parts(b"a", 0, b"", &[&[byte]]),
            parts(b"a", 16, b"x", &[b"%", &among, &[byte]]),
        ]
    };
    (0..=u8::MAX).flat_map(of_byte).collect()
}

/// Literals of all lengths, as a reference and as a pattern, which may be too long for a list.
fn literals() -> Vec<Parts> {
    let of_length = |length: usize| {
        let literal = vec![0xFF; length];
        [parts(b"a", 0, &literal, &[b""]), parts(b"a", 0, b"", &[b"%", &literal])]
    };
    (0..=MAX_LITERAL + 2).flat_map(of_length).collect()
}

/// Lines on both sides of 2,048 bytes, by the tag, by a reference of each kind, and by eight patterns, with
/// few options and with all of them.
fn lengths_of_lines() -> Vec<Parts> {
    let mut all = Vec::new();
    for options in [0, 0x7F, 0xFF, 0x04] {
        for length in MAX_LINE - 120..MAX_LINE + 2 {
            all.push(parts(&vec![b't'; length], options, b"", &[b""]));
            all.push(parts(b"a", options, &vec![b'r'; length], &[b""]));
            all.push(parts(b"", options, &vec![b'r'; length], &[b""]));
            all.push(parts(b"a", options, &vec![b'"'; length / 2], &[b""]));
            // Two literals, of which the pattern's is too long for a list, and a long pattern in quotes.
            let (literal, rest) = (vec![0xFF; MAX_LITERAL], length - MAX_LITERAL);
            all.push(parts(b"a", options, &literal, &[&vec![0x80; rest - 10]]));
            all.push(parts(b"a", options, b"", &[b"%", &vec![b'\\'; length / 2]]));
            let longest = [b'p'; MAX_CANONICAL];
            let mut patterns = [longest.as_slice(); 8];
            patterns[7] = &longest[..length % longest.len()];
            all.push(parts(b"a", options, b"", &patterns));
        }
    }
    all
}

/// Canonical patterns on both sides of 255 bytes, alone and after others, with an empty one that has none.
fn canonical_lengths() -> Vec<Parts> {
    let mut all = Vec::new();
    for length in MAX_CANONICAL - 1..=MAX_CANONICAL + 2 {
        for reference in [0, 1, 55, MAX_CANONICAL - 1, MAX_CANONICAL, length] {
            let pattern = vec![b'p'; length.saturating_sub(reference)];
            let reference = vec![b'r'; reference];
            all.push(parts(b"a", 0, &reference, &[&pattern]));
            all.push(parts(b"a", 0, &reference, &[b"", &pattern, b""]));
            all.push(parts(b"a", 0, &reference, &[b"x", &pattern]));
        }
    }
    let count = |count: usize| parts(b"a", 0, b"", &vec![b"".as_slice(); count]);
    all.extend((0..12).map(count));
    all
}

/// Every number of options with each of several tags, references and lists, so that each fault stands beside
/// each other, in no buffer and in one with room.
fn faults(tally: &mut Tally) {
    let long = vec![b'r'; 2_040];
    let tags: [&[u8]; 4] = [b"a", b"", b"+", b"a\0"];
    let references: [&[u8]; 5] = [b"", b"x", b"\0", b"\xFF", &long];
    let nine = b"\x01%".repeat(9);
    let canonical = [&[0xFF], [b'p'; 255].as_slice()].concat();
    let lists: [&[u8]; 6] = [b"\x01%", b"", b"\x02%", b"\x02%\0", &nine, &canonical];
    for options in 0..=u8::MAX {
        for tag in tags {
            for reference in references {
                let parts = parts(tag, options, reference, &[]);
                for list in lists {
                    for room in [0, ROOM] {
                        join_list(tally, &parts, list, room);
                    }
                }
            }
        }
    }
}

/// All lists of up to four of some bytes.
fn short_lists(tally: &mut Tally) {
    let parts = parts(b"a", 0, b"", &[]);
    for length in 0..=LONGEST_LIST {
        for number in 0..LIST_BYTES.len().pow(length) {
            let byte =
                |place: u32| LIST_BYTES[number / LIST_BYTES.len().pow(place) % LIST_BYTES.len()];
            let list: Vec<u8> = (0..length).map(byte).collect();
            for room in [0, ROOM] {
                join_list(tally, &parts, &list, room);
            }
        }
    }
}
