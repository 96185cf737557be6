//! The matcher.

use super::both::MATCHES;
use super::tally::{shown, Tally, SEED};
use crate::commands::hostile_pattern;
use crate::random::Random;

const SHORT_CASES: usize = 1_000_000;
const LONG_CASES: usize = 30_000;
/// The longest name that is looked at.
const MAX_NAME: usize = 255;

/// Short patterns and names over few bytes, so that many match; INBOX in every case.
pub fn patterns(tally: &mut Tally) {
    let mut random = Random::of("library: patterns", SEED);
    for _ in 0..SHORT_CASES {
        let pattern = some_bytes(&mut random, 8, b"aab/%*");
        let name = some_bytes(&mut random, 8, b"aab/");
        match_both(tally, &pattern, &name);
        let pattern = some_bytes(&mut random, 6, b"iInNbBoOxX%*");
        match_both(tally, &pattern, b"INBOX");
        let case = |random: &mut Random, byte: u8| {
            if random.percent(50) {
                byte
            } else {
                byte.to_ascii_lowercase()
            }
        };
        let pattern = b"INBOX".map(|byte| case(&mut random, byte));
        match_both(tally, &pattern, random.pick(&[b"INBOX".as_slice(), b"INBOX/x", b"inbox"]));
    }
}

/// Long patterns with many wildcards, and names up to the longest.
pub fn hostile(tally: &mut Tally) {
    let mut random = Random::of("library: hostile patterns", SEED);
    for _ in 0..LONG_CASES {
        let pattern = hostile_pattern(&mut random);
        let length = if random.percent(10) { MAX_NAME } else { random.below(MAX_NAME) };
        let name: Vec<u8> =
            (0..length).map(|_| *random.pick(&[&b'a', &b'a', &b'b', &b'/'])).collect();
        match_both(tally, &pattern, &name);
        match_both(tally, &pattern, &vec![b'a'; length]);
    }
}

fn match_both(tally: &mut Tally, pattern: &[u8], name: &[u8]) {
    let call = || format!("matches: pattern {}, name {}", shown(pattern), shown(name));
    tally.same(call, MATCHES.map(|matches| matches(pattern, name)));
    let steps = luspemaro::match_steps(pattern, name);
    let most = most_steps(pattern, name);
    tally.same_of(
        call,
        ["steps", "from the least to the most"],
        [steps, steps.clamp(least_steps(pattern, name), most)],
    );
}

/// The look that decides is a step. A pattern without a wildcard that is the name takes one for the last places, one for each byte
/// and one for the end.
fn least_steps(pattern: &[u8], name: &[u8]) -> usize {
    let plain = !pattern.iter().any(|byte| b"*%".contains(byte));
    match name.len() {
        0 => 1,
        1..=MAX_NAME if plain && pattern == name => name.len() + 2,
        1..=MAX_NAME => 1,
        _ => 0,
    }
}

/// "at most (p + 1) times (n + 1) steps"; no step for a name that is not looked at.
fn most_steps(pattern: &[u8], name: &[u8]) -> usize {
    if name.len() > MAX_NAME {
        return 0;
    }
    (pattern.len() + 1) * (name.len() + 1)
}

fn some_bytes(random: &mut Random, most: usize, of: &[u8]) -> Vec<u8> {
    (0..random.below(most + 1)).map(|_| of[random.below(of.len())]).collect()
}
