//! The grammar of the search: random commands over random tables, and small changes of one. All are lawful.

use compare::random::Random;
use second::command::{MAX_CANONICAL, MAX_PATTERNS};
use second::name::MAX_NAME;

use crate::hostile::{most_rows, Hostile, KINDS, LSUB, WORDS};
use crate::runs::{Run, Runs, MOST_TIMES, NUMBER};

/// What patterns are made of: wildcards, bytes that the names have and that they do not have, and both side by side.
const PATTERN_UNITS: [&str; 20] = [
    "%", "*", "a", "b", "/", "x", "c", "ab", "abb", "%a", "a%", "*a", "a*", "%/", "/%", "*/", "/*",
    "*%", "/a", "%b*",
];
/// What names are made of. Most begin a level or go on in one.
const NAME_UNITS: [&str; 9] = ["a", "b", "ab", "abb", "/a", "/b", "/ab", "/abb", NUMBER];
/// In how many of a hundred changes of a pattern all patterns become alike.
const ALIKE: usize = 60;
/// A change that gives nothing lawful is tried again so often.
const ATTEMPTS: usize = 1_000;

/// A random command over a full table.
pub fn some_hostile(random: &mut Random) -> Hostile {
    let pattern = some_runs(random, &PATTERN_UNITS);
    let count = random.within(1..=MAX_PATTERNS);
    let start = Hostile {
        word: WORDS[0],
        reference: Runs::default(),
        patterns: vec![Runs::of(&[("*", 1), ("a", 1), ("%", 1)]); count],
        rows: 0,
        kind: KINDS[0],
        name: Runs::of(&[(NUMBER, 1)]),
    };
    let start = filled(start);
    let first = Hostile { patterns: vec![pattern; count], ..start.clone() };
    let mut hostile = if first.is_lawful() { first } else { start };
    for _ in 0..random.within(1..=12) {
        hostile = changed(&hostile, random);
    }
    hostile
}

/// A lawful command that differs a little; the same one where no change was found.
pub fn changed(hostile: &Hostile, random: &mut Random) -> Hostile {
    for _ in 0..ATTEMPTS {
        let mut other = hostile.clone();
        change(&mut other, random);
        let other = filled(other);
        if other.is_lawful() && other != *hostile {
            return other;
        }
    }
    hostile.clone()
}

/// As many rows as there can be of such names.
fn filled(hostile: Hostile) -> Hostile {
    Hostile { rows: most_rows(&hostile.name), ..hostile }
}

fn change(hostile: &mut Hostile, random: &mut Random) {
    match random.below(100) {
        0..30 => change_runs(&mut hostile.reference, random, &PATTERN_UNITS, MAX_CANONICAL),
        30..60 => change_patterns(hostile, random),
        60..85 => change_runs(&mut hostile.name, random, &NAME_UNITS, MAX_NAME),
        85..90 => change_count(&mut hostile.patterns, random),
        90..94 => move_end(hostile, random),
        94..97 => change_word(hostile, random),
        _ => hostile.kind = KINDS[random.below(KINDS.len())],
    }
}

/// LSUB has one pattern.
fn change_word(hostile: &mut Hostile, random: &mut Random) {
    hostile.word = WORDS[random.below(WORDS.len())];
    if hostile.word == LSUB {
        hostile.patterns.truncate(1);
    }
}

/// One pattern, or all of them alike.
fn change_patterns(hostile: &mut Hostile, random: &mut Random) {
    let at = random.below(hostile.patterns.len());
    let mut pattern = hostile.patterns[at].clone();
    change_runs(&mut pattern, random, &PATTERN_UNITS, MAX_CANONICAL);
    if random.percent(ALIKE) {
        hostile.patterns.fill(pattern);
    } else {
        hostile.patterns[at] = pattern;
    }
}

/// One pattern more or less, or as many as there may be.
fn change_count(patterns: &mut Vec<Runs>, random: &mut Random) {
    let one = patterns[random.below(patterns.len())].clone();
    match random.below(3) {
        0 => patterns.resize(MAX_PATTERNS, one),
        1 => patterns.push(one),
        _ => _ = patterns.pop(),
    }
}

/// The last run of the reference begins every pattern instead, or the first run of the first pattern, which the others
/// lose too, ends the reference.
fn move_end(hostile: &mut Hostile, random: &mut Random) {
    if random.percent(50) {
        let Some(run) = hostile.reference.0.pop() else { return };
        for pattern in &mut hostile.patterns {
            pattern.0.insert(0, run.clone());
        }
    } else {
        let Some(run) = hostile.patterns[0].0.first().cloned() else { return };
        hostile.reference.0.push(run);
        for pattern in hostile.patterns.iter_mut().filter(|pattern| !pattern.0.is_empty()) {
            pattern.0.remove(0);
        }
    }
}

/// One run longer, shorter, as long as there may be, of another unit, new, taken away, or in another place.
fn change_runs(runs: &mut Runs, random: &mut Random, units: &[&str], most: usize) {
    let list = &mut runs.0;
    if list.is_empty() {
        list.push(some_run(random, units));
        return;
    }
    let at = random.below(list.len());
    let other = random.below(list.len());
    let times = list[at].times;
    match random.below(10) {
        0 => list[at].times = times + random.within(1..=8),
        1 => list[at].times = times.saturating_sub(random.within(1..=8)),
        2 => list[at].times = times * 2,
        3 => list[at].times = times.div_ceil(2),
        4 => list[at].times = random.within(1..=most),
        5 => list[at].unit = random.pick(units).to_string(),
        6 => list.insert(at, some_run(random, units)),
        7 => _ = list.remove(at),
        8 => list.swap(at, other),
        _ => fill(list, at, most),
    }
    list.iter_mut().for_each(|run| run.times = run.times.min(MOST_TIMES));
    *runs = std::mem::take(runs).joined();
}

/// Makes one run as long as the text can be, or as a part of it.
fn fill(list: &mut [Run], at: usize, most: usize) {
    let others: usize = list
        .iter()
        .enumerate()
        .filter(|(place, _)| *place != at)
        .map(|(_, run)| run.name_length())
        .sum();
    let each = Run { times: 1, ..list[at].clone() }.name_length();
    list[at].times = most.saturating_sub(others) / each;
}

fn some_runs(random: &mut Random, units: &[&str]) -> Runs {
    let count = random.within(1..=4);
    Runs((0..count).map(|_| some_run(random, units)).collect()).joined()
}

/// One unit, alone as often as not.
fn some_run(random: &mut Random, units: &[&str]) -> Run {
    let times = if random.percent(50) { 1 } else { random.within(1..=MOST_TIMES / 4) };
    Run { unit: random.pick(units).to_string(), times }
}
