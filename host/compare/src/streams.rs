//! Streams for a feeder (document 02, W2), and the comparison of another feeder with the second
//! program's, chunk by chunk.
//!
//! A stream has parts: commands with literals, odd ones, headers and odd bytes in any order, and
//! runs that end at both sides of the limits. It ends with bytes that show the state which is left:
//! the length of an unfinished command, how much of its literal is missing, or that bytes are
//! dropped.

use std::fmt::Debug;
use std::ops::Range;
use std::slice;

use second::feeder::{Event, Feeder};
use second::literal::MAX_LITERAL;
use second::shape::MAX_LINE;

use crate::literals::{literal_command, odd_command};
use crate::random::Random;
use crate::tables::{good_table, names_of};

/// Pieces of streams: ends of lines, headers, what is none, and offending bytes.
const TOKENS: [&[u8]; 24] = [
    b"\r\n",
    b"\r",
    b"\n",
    b"\0",
    b"{",
    b"}",
    b"{0}\r\n",
    b"{1}\r\n",
    b"{2}\r\n",
    b"{12}\r\n",
    b"{0}",
    b"{7}\r",
    b"{00}\r\n",
    b"{}\r\n",
    b"{3+}\r\n",
    b"{ 3}\r\n",
    b"{1024}\r\n",
    b"{1025}\r\n",
    b"{99999999999999999999}\r\n",
    b"\xFF",
    b"\x80",
    b"x",
    b"\"",
    b"1",
];
/// At most so many bytes on either side of a limit.
const NEAR: usize = 8;
/// Bytes before and behind which a stream is cut in one way of cutting.
const EDGES: &[u8] = b"\r\n{}\0";

/// The chunks of a seed, in order.
pub fn stream_of(seed: u64) -> Vec<Vec<u8>> {
    let mut random = Random::of("streams", seed);
    let stream = bytes_of_stream(&mut random);
    cut(&mut random, &stream)
}

/// Feeds the stream of a seed to a feeder in its first state, and compares what each chunk gives
/// with what it gives in the second program. The error is the first difference, as text.
pub fn compare_stream(
    seed: u64,
    mut feed: impl FnMut(&[u8]) -> Vec<Event>,
) -> Result<usize, String> {
    let chunks = stream_of(seed);
    let mut second = Feeder::default();
    for (at, chunk) in chunks.iter().enumerate() {
        let (expected, actual) = (second.feed(chunk), feed(chunk));
        if actual != expected {
            let place = format!("stream {seed}, chunk {} of {}", at + 1, chunks.len());
            return Err(difference_text(&place, &chunks[..at], chunk, &expected, &actual));
        }
    }
    Ok(chunks.len())
}

/// The same for many seeds, each with a feeder of its own. The number is that of the chunks.
pub fn compare_streams<F: FnMut(&[u8]) -> Vec<Event>>(
    seeds: Range<u64>,
    mut start: impl FnMut() -> F,
) -> Result<usize, String> {
    seeds.map(|seed| compare_stream(seed, start())).sum()
}

/// Feeds the stream of a seed whole, cut, and byte by byte, each from the first state: events and
/// state are the same. `feed_all` starts a feeder, feeds it chunks and gives its events and state.
pub fn compare_cuts<S: PartialEq + Debug>(
    seed: u64,
    mut feed_all: impl FnMut(&[Vec<u8>]) -> (Vec<Event>, S),
) -> Result<(), String> {
    let chunks = stream_of(seed);
    let stream = chunks.concat();
    let whole = feed_all(slice::from_ref(&stream));
    let single: Vec<Vec<u8>> = stream.iter().map(|&byte| vec![byte]).collect();
    for (name, chunks) in [("cut", &chunks), ("byte by byte", &single)] {
        let given = feed_all(chunks);
        if given != whole {
            let text =
                |(events, state): &(Vec<Event>, S)| format!("{}{state:?}\n", events_text(events));
            let (cut, uncut) = (text(&given), text(&whole));
            return Err(format!("stream {seed}, {name}\n{cut}Whole\n{uncut}"));
        }
    }
    Ok(())
}

fn difference_text(
    place: &str,
    before: &[Vec<u8>],
    chunk: &[u8],
    expected: &[Event],
    actual: &[Event],
) -> String {
    let mut second = Feeder::default();
    second.feed(&before.concat());
    let state = match &second {
        Feeder::Reading(command) => format!("reading \"{}\"", command.escape_ascii()),
        Feeder::Dropping { after_cr } => format!("dropping, after CR: {after_cr}"),
    };
    format!(
        "{place} differs\nThe state\n{state}\nThe chunk\n\"{}\"\n\
         The second program's feeder\n{}The feeder\n{}",
        chunk.escape_ascii(),
        events_text(expected),
        events_text(actual)
    )
}

/// A line for each event.
fn events_text(events: &[Event]) -> String {
    let text = |event: &Event| match event {
        Event::Command(command) => format!("command \"{}\"\n", command.escape_ascii()),
        Event::Refused(refusal) => format!("refused {}\n", refusal.number()),
        Event::GoOn => "+ go\n".to_string(),
    };
    if events.is_empty() {
        "nothing\n".to_string()
    } else {
        events.iter().map(text).collect()
    }
}

fn bytes_of_stream(random: &mut Random) -> Vec<u8> {
    let rows = good_table(random, 3);
    let names = names_of(&rows);
    let mut stream = Vec::new();
    for _ in 0..random.within(1..=6) {
        let part = match random.below(12) {
            0 | 1 => literal_command(random, &names),
            2..5 => odd_command(random, &names),
            5..8 => tokens(random),
            8 | 9 => up_to_the_longest(random, &stream),
            10 => near_the_longest_literal(random),
            _ => many_digits(random),
        };
        stream.extend(part);
    }
    let end = match random.below(4) {
        0 => Vec::new(),
        1 => b"x".repeat(MAX_LINE + 1),
        2 => b"\r\n".repeat(MAX_LITERAL / 2 + 2),
        _ => b"\r\nz NAMESPACE\r\n".to_vec(),
    };
    stream.extend(end);
    stream
}

fn tokens(random: &mut Random) -> Vec<u8> {
    let count = random.within(1..=16);
    (0..count).flat_map(|_| random.pick(&TOKENS).to_vec()).collect()
}

/// Bytes that bring the command under way near 2,048 bytes, and tokens behind them. Some of the
/// bytes may be a literal.
fn up_to_the_longest(random: &mut Random, stream: &[u8]) -> Vec<u8> {
    let mut feeder = Feeder::default();
    feeder.feed(stream);
    let used = match &feeder {
        Feeder::Reading(command) => command.len(),
        Feeder::Dropping { .. } => 0,
    };
    let mut part = Vec::new();
    if random.percent(50) {
        let length = random.within(MAX_LITERAL - 200..=MAX_LITERAL);
        part.extend_from_slice(format!("{{{length}}}\r\n").as_bytes());
    }
    let target = random.within(MAX_LINE - NEAR..=MAX_LINE + NEAR);
    let missing = target.saturating_sub(used + part.len());
    part.extend(b"f".repeat(missing));
    part.extend(tokens(random));
    part
}

/// A header of some 1,024 bytes, and about as many bytes.
fn near_the_longest_literal(random: &mut Random) -> Vec<u8> {
    let length = random.within(MAX_LITERAL - 1..=MAX_LITERAL + 1);
    let filled = (length - NEAR + random.below(2 * NEAR)).max(1);
    let filling = random.pick(&[b"l".as_slice(), b"\r\n", b"{1}\r\n", b"\xFF"]);
    let mut part = format!("l{{{length}}}\r\n").into_bytes();
    part.extend(filling.iter().cycle().take(filled));
    part.extend(tokens(random));
    part
}

/// A header of some 1,500 digits, of a small number or of a large one.
fn many_digits(random: &mut Random) -> Vec<u8> {
    let zeros = random.within(1_480..=1_520);
    let number = random.pick(&["2", "1024", "1025", "18446744073709551618"]);
    let mut part = format!("{{{}{number}}}\r\n", "0".repeat(zeros)).into_bytes();
    part.extend(tokens(random));
    part
}

/// One way of cutting: not at all, byte by byte, at what has a meaning, or anywhere.
fn cut(random: &mut Random, stream: &[u8]) -> Vec<Vec<u8>> {
    match random.below(6) {
        0 => vec![stream.to_vec()],
        1 => stream.iter().map(|&byte| vec![byte]).collect(),
        2 => {
            let same = |one: &u8, other: &u8| !EDGES.contains(one) && !EDGES.contains(other);
            stream.chunk_by(same).map(<[u8]>::to_vec).collect()
        }
        _ => cut_anywhere(random, stream),
    }
}

/// Chunks of any length up to some number, zero too.
fn cut_anywhere(random: &mut Random, mut stream: &[u8]) -> Vec<Vec<u8>> {
    let most = *random.pick(&[&1, &3, &20, &300, &3_000]);
    let mut chunks = Vec::new();
    while !stream.is_empty() {
        let length = random.within(0..=most).min(stream.len());
        let (chunk, rest) = stream.split_at(length);
        chunks.push(chunk.to_vec());
        stream = rest;
    }
    chunks.push(Vec::new());
    chunks
}
