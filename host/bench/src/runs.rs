//! Texts in runs, as the files of hostile commands have them: `%{160}` is "%" 160 times, `(/a){15}` is "/a" 15 times,
//! and in a name `#` is the number of its row, in three digits.

use std::fmt;

/// What stands for the row's number in a name.
pub const NUMBER: &str = "#";
/// The bytes of a row's number.
const DIGITS: usize = 3;
/// No text of a command or a name is longer, so no run is.
pub const MOST_TIMES: usize = 255;

/// A unit so many times.
#[derive(Clone, Debug, PartialEq, Eq)]
pub struct Run {
    pub unit: String,
    pub times: usize,
}

/// Runs one after the other.
#[derive(Clone, Debug, Default, PartialEq, Eq)]
pub struct Runs(pub Vec<Run>);

impl Runs {
    pub fn of(runs: &[(&str, usize)]) -> Runs {
        let run = |&(unit, times): &(&str, usize)| Run { unit: unit.to_string(), times };
        Runs(runs.iter().map(run).collect()).joined()
    }

    /// The runs of a written text; none if it is not written so.
    pub fn read(text: &str) -> Option<Runs> {
        let mut runs = Vec::new();
        let mut rest = text;
        while !rest.is_empty() {
            let (unit, after) = read_unit(rest)?;
            let (times, after) = read_times(after)?;
            runs.push(Run { unit: unit.to_string(), times });
            rest = after;
        }
        Some(Runs(runs))
    }

    /// The text of a command.
    pub fn text(&self) -> String {
        self.0.iter().map(|run| run.unit.repeat(run.times)).collect()
    }

    /// The name of a row.
    pub fn name(&self, row: usize) -> String {
        self.text().replace(NUMBER, &format!("{row:0DIGITS$}"))
    }

    /// How many bytes a name has.
    pub fn name_length(&self) -> usize {
        self.0.iter().map(Run::name_length).sum()
    }

    /// The same text, with no empty run and no two runs of one unit side by side.
    pub fn joined(self) -> Runs {
        let mut runs: Vec<Run> = Vec::new();
        for run in self.0.into_iter().filter(|run| run.times > 0) {
            match runs.last_mut().filter(|last| last.unit == run.unit) {
                Some(last) => last.times += run.times,
                None => runs.push(run),
            }
        }
        Runs(runs)
    }
}

impl Run {
    pub fn name_length(&self) -> usize {
        let length = if self.unit == NUMBER { DIGITS } else { self.unit.len() };
        length * self.times
    }
}

/// A byte, or some in parentheses.
fn read_unit(text: &str) -> Option<(&str, &str)> {
    let (unit, rest) = match text.strip_prefix('(') {
        Some(inner) => inner.split_once(')')?,
        None => text.split_at_checked(1)?,
    };
    let is_plain = |byte: u8| byte.is_ascii_graphic() && !b"(){};\"\\".contains(&byte);
    (!unit.is_empty() && unit.bytes().all(is_plain)).then_some((unit, rest))
}

/// A number in braces; one time where there is none.
fn read_times(text: &str) -> Option<(usize, &str)> {
    let Some(inner) = text.strip_prefix('{') else {
        return Some((1, text));
    };
    let (times, rest) = inner.split_once('}')?;
    let times = times.parse().ok().filter(|times| (1..=MOST_TIMES).contains(times))?;
    Some((times, rest))
}

impl fmt::Display for Runs {
    fn fmt(&self, to: &mut fmt::Formatter) -> fmt::Result {
        for Run { unit, times } in &self.0 {
            match (unit.len(), times) {
                (1, 1) => write!(to, "{unit}")?,
                (_, 1) => write!(to, "({unit})")?,
                (1, _) => write!(to, "{unit}{{{times}}}")?,
                _ => write!(to, "({unit}){{{times}}}")?,
            }
        }
        Ok(())
    }
}
