//! The steps of a command over the rows of a table: those in which each name, and each beginning of a name that may be
//! listed, is matched against the patterns (`luspemaro_match_steps`).

use std::collections::HashMap;

use formats::rows::Flags;
use second::name::DELIMITER;

use crate::hostile::{Hostile, LSUB};

/// A beginning of a name is matched when the answer is measured, and again when it is written.
const BEGINNING_MATCHES: u64 = 2;
/// Of how many rows the steps are counted where they are estimated.
const SAMPLED: usize = 2;

/// What decides which names of a command are matched against which patterns. All rows are of one kind.
struct Matched {
    patterns: Vec<Vec<u8>>,
    /// Those that end in "%".
    percent: Vec<Vec<u8>>,
    is_recursive: bool,
    /// Levels without a row are listed.
    has_levels: bool,
    /// The rows meet the criteria.
    meets: bool,
    /// The rows can be listed as levels alone.
    is_level: bool,
}

impl Hostile {
    /// The steps over all rows.
    pub fn steps(&self) -> u64 {
        let matched = Matched::of(self);
        (0..self.rows).map(|row| matched.steps_of_row(self, row)).sum()
    }

    /// The same, from some of the rows.
    pub fn estimated_steps(&self) -> f64 {
        let matched = Matched::of(self);
        let sampled = (0..self.rows).step_by(self.rows.div_ceil(SAMPLED));
        let steps: Vec<u64> = sampled.map(|row| matched.steps_of_row(self, row)).collect();
        steps.iter().sum::<u64>() as f64 * self.rows as f64 / steps.len() as f64
    }
}

impl Matched {
    fn of(hostile: &Hostile) -> Matched {
        let (word, flags) = (hostile.word, hostile.kind.1);
        let patterns = hostile.canonical_patterns();
        let mut percent = patterns.clone();
        percent.retain(|pattern| pattern.ends_with(b"%"));
        let is_selective = word == LSUB || word.contains("SUBSCRIBED");
        let has_levels = !is_selective && !percent.is_empty();
        Matched {
            is_recursive: match word {
                LSUB => !percent.is_empty(),
                _ => word.contains("RECURSIVEMATCH"),
            },
            has_levels,
            meets: flags.has(if is_selective { Flags::SUBSCRIBED } else { Flags::EXISTS }),
            is_level: has_levels && !flags.has(Flags::EXISTS),
            patterns,
            percent,
        }
    }

    /// The whole name once, and the beginnings that the row before does not have, if they may be listed.
    fn steps_of_row(&self, hostile: &Hostile, row: usize) -> u64 {
        let name = hostile.name.name(row).into_bytes();
        let before = row.checked_sub(1).map(|row| hostile.name.name(row)).unwrap_or_default();
        let shared = name.iter().zip(before.as_bytes()).take_while(|(one, other)| one == other);
        let first = shared.count() + 1;
        let (own, is_matched) = self.steps_of_name(&name);
        let Some(patterns) = self.patterns_of_beginnings(is_matched) else {
            return own;
        };
        let ends = (first..name.len()).filter(|&at| name[at] == DELIMITER);
        let beginnings: u64 = ends.map(|at| match_steps(patterns, &name[..at]).0).sum();
        own + BEGINNING_MATCHES * beginnings
    }

    fn steps_of_name(&self, name: &[u8]) -> (u64, bool) {
        match self.is_level {
            true => match_steps(&self.percent, name),
            false if self.meets || self.is_recursive => match_steps(&self.patterns, name),
            false => (0, false),
        }
    }

    /// As a level a beginning is matched against the patterns that end in "%"; under RECURSIVEMATCH against all, if the
    /// row meets the criteria and is not matched itself.
    fn patterns_of_beginnings(&self, is_matched: bool) -> Option<&[Vec<u8>]> {
        match (self.has_levels && self.meets, self.is_recursive && self.meets && !is_matched) {
            (true, _) => Some(&self.percent),
            (false, true) => Some(&self.patterns),
            (false, false) => None,
        }
    }
}

/// The steps of a name against one pattern after the other, up to the first that it matches; and whether it matches one.
pub fn match_steps(patterns: &[Vec<u8>], name: &[u8]) -> (u64, bool) {
    let mut known = HashMap::new();
    let mut steps = 0;
    for pattern in patterns {
        let look = || (luspemaro::match_steps(pattern, name), luspemaro::matches(pattern, name));
        let &mut (taken, is_matched) = known.entry(pattern).or_insert_with(look);
        steps += taken as u64;
        if is_matched {
            return (steps, true);
        }
    }
    (steps, false)
}
