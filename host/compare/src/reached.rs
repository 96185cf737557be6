//! What generated inputs reach, and how often.

use std::collections::BTreeMap;

/// How often each of several things came.
#[derive(Clone, Debug, Default, PartialEq, Eq)]
pub struct Reached(BTreeMap<String, usize>);

impl Reached {
    pub fn add(&mut self, what: impl Into<String>) {
        self.add_times(what, 1);
    }

    /// Adds what came so many times.
    pub fn add_times(&mut self, what: impl Into<String>, times: usize) {
        *self.0.entry(what.into()).or_default() += times;
    }

    /// Adds those that hold.
    pub fn add_held(&mut self, whether: impl IntoIterator<Item = (&'static str, bool)>) {
        for (what, _) in whether.into_iter().filter(|(_, holds)| *holds) {
            self.add(what);
        }
    }

    /// Adds all that came elsewhere.
    pub fn add_all(&mut self, other: &Reached) {
        for (what, times) in &other.0 {
            self.add_times(what, *times);
        }
    }

    /// Adds all that came elsewhere, once each.
    pub fn add_once(&mut self, other: &Reached) {
        other.0.keys().for_each(|what| self.add(what));
    }

    pub fn times(&self, what: &str) -> usize {
        self.0.get(what).copied().unwrap_or(0)
    }

    /// Those that came, each with its number.
    pub fn iter(&self) -> impl Iterator<Item = (&str, usize)> {
        self.0.iter().map(|(what, times)| (what.as_str(), *times))
    }

    /// Checks that each of these came at least so often.
    pub fn check(&self, least: &[(&str, usize)]) {
        for (what, least) in least {
            assert!(self.times(what) >= *least, "{what}: {}\n{self:#?}", self.times(what));
        }
    }
}
