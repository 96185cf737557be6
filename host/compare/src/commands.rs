//! Commands: lawful ones with every option, nested values, hostile patterns, and damaged ones.

use second::command::{MAX_CANONICAL, MAX_PATTERNS};

use crate::random::Random;
use crate::strings::push_string;

const TAGS: [&[u8]; 8] = [b"a", b"C04", b"t]1", b"A.1", b"}", b"0", b"w", b"~!#$&',-/:;<=>?@[^_`|"];
/// The first of the known ones stands in most lists.
const SELECTION: [&[u8]; 4] = [b"SUBSCRIBED", b"REMOTE", b"RECURSIVEMATCH", b"SPECIAL-USE"];
const RETURN: [&[u8]; 3] = [b"SUBSCRIBED", b"CHILDREN", b"SPECIAL-USE"];
const UNKNOWN_OPTIONS: [&[u8]; 6] =
    [b"FOO", b"CHILDREN", b"REMOTE", b"SUBSCRIBEDX", b"SPECIAL", b"}+"];
/// Bytes that damage the grammar of a line, and its shape.
const ODD_BYTES: &[u8] = b"    (((())))\"\"\\\\{}%*+]/aA\x01\x7F";
const ODD_SHAPE: &[u8] = b"\x00\x80\xFF\r\n";

/// A LIST or NAMESPACE on the grammar, with its CR LF; patterns are made from the names. LSUB has
/// commands of its own, in `lsub`.
pub fn command(random: &mut Random, names: &[Vec<u8>]) -> Vec<u8> {
    let mut line = tag_and_space(random);
    if random.percent(6) {
        push_in_some_case(&mut line, random, b"NAMESPACE");
    } else {
        push_in_some_case(&mut line, random, b"LIST");
        push_list(&mut line, random, names);
    }
    line.extend_from_slice(b"\r\n");
    line
}

/// A tag and the space after it.
pub fn tag_and_space(random: &mut Random) -> Vec<u8> {
    [some_tag(random), b" "].concat()
}

pub fn some_tag(random: &mut Random) -> &'static [u8] {
    random.pick(&TAGS)
}

/// A line after one to three damages, most of them before its CR LF and to its grammar alone.
pub fn damaged(random: &mut Random, mut line: Vec<u8>) -> Vec<u8> {
    for _ in 0..random.within(1..=3) {
        let spared = if random.percent(95) { b"\r\n".len() } else { 0 };
        let at = random.below(line.len().saturating_sub(spared).max(1));
        let odd_bytes = if random.percent(95) { ODD_BYTES } else { ODD_SHAPE };
        let odd = odd_bytes[random.below(odd_bytes.len())];
        match random.below(5) {
            0 | 1 => line.insert(at, odd),
            2 => line[at] = odd,
            3 => drop(line.remove(at)),
            _ => {
                let piece = line[at..line.len().min(at + 8)].to_vec();
                line.splice(at..at, piece);
            }
        }
    }
    line
}

/// A value of an option, nested to at most `depth`.
pub fn push_value(line: &mut Vec<u8>, random: &mut Random, depth: usize) {
    line.push(b'(');
    for item in 0..random.within(1..=3) {
        if item > 0 {
            line.push(b' ');
        }
        if depth > 1 && random.percent(50) {
            push_value(line, random, depth - 1);
        } else {
            let text = random.pick(&[b"a".as_slice(), b"]", b"NIL", b"x y", b"", b"\"\\", b"%"]);
            push_string(line, random, text, b"");
        }
    }
    line.push(b')');
}

/// A pattern: a name with pieces of it made wildcards, or none of the names.
pub fn pattern(random: &mut Random, names: &[Vec<u8>]) -> Vec<u8> {
    if names.is_empty() || random.percent(25) {
        return random.pick(&[b"%".as_slice(), b"*", b"", b"in%", b"%/%", b"*/*", b"moo"]).to_vec();
    }
    let mut pattern = names[random.below(names.len())].clone();
    for _ in 0..random.below(4) {
        let from = random.below(pattern.len() + 1);
        let to = pattern.len().min(from + random.below(6));
        pattern.splice(from..to, random.pick(&[b"%".as_slice(), b"*", b"%%", b"*%"]).to_vec());
    }
    if random.percent(20) {
        pattern.truncate(random.below(pattern.len() + 1));
    }
    if random.percent(10) {
        pattern.make_ascii_lowercase();
    }
    pattern
}

/// A pattern that a matcher which tries every way does not get through.
pub fn hostile_pattern(random: &mut Random) -> Vec<u8> {
    let piece = random.pick(&[b"%a".as_slice(), b"*a", b"*", b"%", b"*%", b"%*a", b"a*", b"%/"]);
    let times = random.within(1..=MAX_CANONICAL / piece.len());
    let end = random.pick(&[b"".as_slice(), b"b", b"%", b"*", b"a", b"/"]);
    let mut pattern = [piece.repeat(times).as_slice(), end].concat();
    pattern.truncate(MAX_CANONICAL);
    pattern
}

/// [SP options] SP reference SP patterns [SP "RETURN" SP options]
fn push_list(line: &mut Vec<u8>, random: &mut Random, names: &[Vec<u8>]) {
    if random.percent(65) {
        line.push(b' ');
        push_options(line, random, &SELECTION);
    }
    let canonical = pattern(random, names);
    let reference = match random.below(10) {
        0..5 => Vec::new(),
        5..8 => canonical[..random.below(canonical.len() + 1)].to_vec(),
        _ => random.pick(&[b"%".as_slice(), b"*", b"in", b"Foo", b"Foo/", b"%/"]).to_vec(),
    };
    line.push(b' ');
    push_string(line, random, &reference, b"");
    line.push(b' ');
    push_patterns(line, random, names, &reference, &canonical);
    if random.percent(45) {
        line.push(b' ');
        push_in_some_case(line, random, b"RETURN");
        line.push(b' ');
        push_options(line, random, &RETURN);
    }
}

fn push_options(line: &mut Vec<u8>, random: &mut Random, known: &[&[u8]]) {
    line.push(b'(');
    for number in 0..random.below(known.len() + 2) {
        if number > 0 {
            line.push(b' ');
        }
        let option = match random.below(100) {
            0 | 1 => random.pick(&UNKNOWN_OPTIONS),
            2..50 => known[0],
            _ => random.pick(known),
        };
        push_in_some_case(line, random, option);
        if random.percent(1) {
            line.push(b' ');
            push_value(line, random, 4);
        }
    }
    line.push(b')');
}

/// A canonical pattern behind its reference, alone or in a list with others.
fn push_patterns(
    line: &mut Vec<u8>,
    random: &mut Random,
    names: &[Vec<u8>],
    reference: &[u8],
    canonical: &[u8],
) {
    let push_behind = |line: &mut Vec<u8>, random: &mut Random, canonical: &[u8]| {
        let behind = canonical.strip_prefix(reference).unwrap_or(canonical);
        push_string(line, random, behind, b"%*");
    };
    if random.percent(60) {
        return push_behind(line, random, canonical);
    }
    line.push(b'(');
    push_behind(line, random, canonical);
    let most = MAX_PATTERNS + usize::from(random.percent(10));
    for _ in 1..random.within(1..=most) {
        line.push(b' ');
        let other = pattern(random, names);
        push_behind(line, random, &other);
    }
    line.push(b')');
}

/// The word as it is, or with letters of either case.
pub fn push_in_some_case(line: &mut Vec<u8>, random: &mut Random, word: &[u8]) {
    if random.percent(80) {
        return line.extend_from_slice(word);
    }
    for byte in word {
        line.push(if random.percent(50) { byte.to_ascii_lowercase() } else { *byte });
    }
}
