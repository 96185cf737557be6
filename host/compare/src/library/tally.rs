//! Counting what was compared, and showing what differed.

use std::fmt::{self, Debug, Formatter};

pub use crate::report::shown;

use crate::reached::Reached;
use crate::trials::{unreached, unreached_after, JUDGED};

/// The seed of every stream of inputs, which are the same in every run.
pub const SEED: u64 = 0;
/// Differences of one group that are printed; the others are counted.
const MOST_SHOWN: u64 = 3;

/// The comparisons of one group.
pub struct Tally {
    pub compared: u64,
    pub different: u64,
    /// What the claims of laws reached.
    pub reached: Reached,
    /// A group that goes on seed by seed ends when it has compared so many times, or come to so many of what it counts.
    least: u64,
}

/// Bytes that are shown as text.
#[derive(PartialEq)]
pub struct Text(pub Vec<u8>);

impl Tally {
    pub fn new(least: u64) -> Tally {
        Tally { compared: 0, different: 0, reached: Reached::default(), least }
    }

    /// The seeds of a group, until it has compared often enough.
    pub fn for_each_seed(&mut self, compare: impl FnMut(&mut Tally, u64)) {
        self.seeds(|tally| tally.compared, compare);
    }

    /// The seeds of a group, until it has reached this often enough.
    pub fn for_each_seed_until(&mut self, what: &str, compare: impl FnMut(&mut Tally, u64)) {
        self.seeds(|tally| tally.reached.times(what) as u64, compare);
    }

    fn seeds(&mut self, counted: impl Fn(&Tally) -> u64, mut compare: impl FnMut(&mut Tally, u64)) {
        for seed in SEED.. {
            if counted(self) >= self.least {
                return;
            }
            compare(self, seed);
        }
    }

    /// Compares what the two libraries gave for a call, which is shown if they differ.
    pub fn same<T: PartialEq + Debug>(&mut self, call: impl FnOnce() -> String, given: [T; 2]) {
        self.same_of(call, ["proved", "second"], given);
    }

    /// Compares two that are to be the same, and that are shown by these words if they differ.
    pub fn same_of<T: PartialEq + Debug>(
        &mut self,
        call: impl FnOnce() -> String,
        words: [&str; 2],
        given: [T; 2],
    ) {
        self.compared += 1;
        let ([one, other], [word, other_word]) = (&given, words);
        if one != other {
            self.report(|| format!("{}\n{word} {one:?}\n{other_word} {other:?}\n", call()));
        }
    }

    /// Counts the claims of a trial that hold, or shows the one that does not.
    pub fn judged(&mut self, judged: Result<Reached, String>) {
        match judged {
            Ok(reached) => {
                self.compared += reached.times(JUDGED) as u64;
                self.reached.add_all(&reached);
            }
            Err(reason) => {
                self.compared += 1;
                self.report(|| reason);
            }
        }
    }

    /// After enough claims, all of this must have been reached.
    pub fn need(&mut self, needed: fn() -> Vec<String>) {
        self.report_unreached(&unreached(needed, &self.reached));
    }

    /// After this number of claims, all of this must have been reached.
    pub fn need_after(&mut self, enough: usize, needed: fn() -> Vec<String>) {
        self.report_unreached(&unreached_after(enough, needed, &self.reached));
    }

    /// All of this must have been reached.
    pub fn need_all(&mut self, needed: &[&str]) {
        let unreached = needed.iter().filter(|what| self.reached.times(what) == 0);
        self.report_unreached(&unreached.map(|what| what.to_string()).collect::<Vec<_>>());
    }

    fn report_unreached(&mut self, unreached: &[String]) {
        for what in unreached {
            self.report(|| format!("no claim reached: {what}\n"));
        }
    }

    fn report(&mut self, text: impl FnOnce() -> String) {
        self.different += 1;
        if self.different <= MOST_SHOWN {
            println!("{}", text());
        }
    }
}

impl Debug for Text {
    fn fmt(&self, formatter: &mut Formatter) -> fmt::Result {
        write!(formatter, "{}", shown(&self.0))
    }
}
