//! The search for the worst command over a full table: climbs from known and from random commands, by small changes.
//!
//! The same seed tries the same commands in the same order as long as it climbs by steps and the trials end each climb.
//! Climbs by time depend on the machine, and the seconds end every climb that has more trials.

use std::time::{Duration, Instant};

use compare::library::both::{PROVED, SECOND};
use compare::random::Random;

use crate::changes::{changed, some_hostile};
use crate::hostile::Hostile;
use crate::trial::{measure_hostile, Taken, Trial};

/// How many commands are kept: so many of the longest, then those that take longest beside the second program.
pub const KEPT: usize = 10;
const LONGEST: usize = 5;
/// Random commands among the starts.
const RANDOM_STARTS: usize = 40;
/// Climbs by time are over a part of the rows, one of so many: the time of a LIST grows as the rows.
const FEWER_ROWS: usize = 32;
/// A command that takes less than so many seconds over its full table is not looked at beside the second program.
const WORTH_SECONDS: f64 = 0.005;
/// A score must be higher by so much, since times are not the same twice.
const BETTER: f64 = 1.01;
/// The share of the seconds that is left for the measures at the end. Each of the worst is asked of both libraries once
/// at least, so they may take longer.
const MEASURES: f64 = 0.2;

/// How long is searched.
#[derive(Clone, Copy)]
pub struct Budget {
    pub seed: u64,
    pub seconds: f64,
    /// Changes tried in one climb.
    pub trials: usize,
}

/// The climbs from the best starts, by one score.
struct Phase {
    name: &'static str,
    score: fn(&Hostile) -> f64,
    /// Of how many of the best before, beside what is known, the score is looked at, and from how many of these it is
    /// climbed.
    starts: usize,
    climbs: usize,
    /// Of the seconds.
    share: f64,
}

const ALL: usize = usize::MAX;
const PHASES: [Phase; 4] = [
    Phase { name: "steps", score: Hostile::estimated_steps, starts: ALL, climbs: ALL, share: 0.25 },
    Phase { name: "most", score: Hostile::estimated_steps, starts: ALL, climbs: 6, share: 0.15 },
    Phase { name: "time", score: time, starts: 16, climbs: 4, share: 0.2 },
    Phase { name: "ratio", score: time_by_second, starts: 16, climbs: 4, share: 0.2 },
];

#[derive(Clone)]
struct Scored {
    hostile: Hostile,
    score: f64,
}

/// The worst commands, the longest first, from these and from random ones; and how many were tried.
pub fn search(known: &[Hostile], budget: Budget) -> Result<(Vec<Taken>, usize), String> {
    let mut random = Random::of("starts", budget.seed);
    let mut best: Vec<Hostile> = (0..RANDOM_STARTS).map(|_| some_hostile(&mut random)).collect();
    let mut tried = 0;
    let mut tops = Vec::new();
    for phase in &PHASES {
        best.truncate(phase.starts);
        let (climbed, count) = phase.climb_all(&[known, &best].concat(), budget);
        tried += count;
        best = of_different_shapes(&climbed);
        tops.push(best.clone());
    }
    let [.., by_time, by_second] = &tops[..] else { return Ok((Vec::new(), tried)) };
    let mut worst = by_time.clone();
    worst.truncate(LONGEST);
    let others: Vec<Hostile> =
        by_second.iter().filter(|hostile| !worst.contains(hostile)).cloned().collect();
    worst.extend(others);
    worst.truncate(KEPT);
    Ok((measured(&worst, budget.seconds * MEASURES)?, tried))
}

impl Phase {
    /// Climbs from the best of the starts, of those that are looked at in half of the time. These and what was climbed
    /// to, but those without a score, the best first; and how many were tried.
    fn climb_all(&self, starts: &[Hostile], budget: Budget) -> (Vec<Hostile>, usize) {
        let begin = Instant::now();
        let share = Duration::from_secs_f64(budget.seconds * self.share);
        let early = starts.iter().take_while(|_| begin.elapsed() < share / 2);
        let mut all: Vec<Scored> = early.map(|hostile| self.scored(hostile.clone())).collect();
        sort(&mut all);
        let from: Vec<Scored> = all.iter().take(self.climbs).cloned().collect();
        let mut tried = 0;
        for (at, start) in from.iter().enumerate() {
            let left = share.saturating_sub(begin.elapsed());
            let until = Instant::now() + left / (from.len() - at) as u32;
            let mut random = Random::of(self.name, budget.seed ^ ((at as u64) << 32));
            let (top, count) = self.climb(start, &mut random, budget.trials, until);
            tried += count;
            all.push(top);
        }
        all.retain(|scored| scored.score > 0.0);
        sort(&mut all);
        (all.into_iter().map(|scored| scored.hostile).collect(), tried)
    }

    /// Goes from a command to a changed one wherever that has a higher score.
    fn climb(
        &self,
        start: &Scored,
        random: &mut Random,
        trials: usize,
        until: Instant,
    ) -> (Scored, usize) {
        let mut top = start.clone();
        let mut tried = 0;
        while tried < trials && Instant::now() < until {
            tried += 1;
            let other = self.scored(changed(&top.hostile, random));
            if other.score > top.score * BETTER {
                top = other;
            }
        }
        (top, tried)
    }

    fn scored(&self, hostile: Hostile) -> Scored {
        Scored { score: (self.score)(&hostile), hostile }
    }
}

/// The highest score first.
fn sort(some: &mut [Scored]) {
    some.sort_by(|one, other| other.score.total_cmp(&one.score));
}

/// The first of each shape.
fn of_different_shapes(some: &[Hostile]) -> Vec<Hostile> {
    let mut kept: Vec<Hostile> = Vec::new();
    for hostile in some {
        if kept.iter().all(|other| other.shape() != hostile.shape()) {
            kept.push(hostile.clone());
        }
    }
    kept
}

/// Measures over the full tables, in about so many seconds; the longest first.
fn measured(worst: &[Hostile], seconds: f64) -> Result<Vec<Taken>, String> {
    let mut reference = Trial::reference();
    let each = seconds / worst.len() as f64;
    let measure = |hostile: &Hostile| measure_hostile(hostile, &mut reference, each);
    let mut taken = worst.iter().map(measure).collect::<Result<Vec<Taken>, String>>()?;
    taken.sort_by(|one, other| other.seconds.total_cmp(&one.seconds));
    Ok(taken)
}

/// Seconds of the proved library, from a part of the rows.
fn time(hostile: &Hostile) -> f64 {
    let part = part_of(hostile);
    Trial::new(&part).seconds(PROVED) * hostile.rows as f64 / part.rows as f64
}

/// The proved library's time by the second program's, over a part of the rows.
fn time_by_second(hostile: &Hostile) -> f64 {
    let part = part_of(hostile);
    let mut trial = Trial::new(&part);
    let proved = trial.seconds(PROVED);
    let is_worth = proved * hostile.rows as f64 > WORTH_SECONDS * part.rows as f64;
    if is_worth {
        proved / trial.seconds(SECOND)
    } else {
        0.0
    }
}

fn part_of(hostile: &Hostile) -> Hostile {
    Hostile { rows: hostile.rows.div_ceil(FEWER_ROWS), ..hostile.clone() }
}
