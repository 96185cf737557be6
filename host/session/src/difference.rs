//! How an answer differs from the one of the second program to the same frame.

use std::collections::BTreeMap;

use formats::reply::Reply;
use formats::show::{beside, beside_line, came_text, counted};
use formats::text::{line_text, name_text};

/// Beside every difference.
pub const SECOND: &str = "the second program is not proved";

/// Where an answer is not the second program's.
#[derive(Clone, Debug, PartialEq, Eq)]
pub struct Disagreement {
    /// In a few words.
    pub short: String,
    /// Each line or name that one of the two gives and the other does not.
    pub lines: Vec<String>,
}

impl Disagreement {
    /// None where the two are the same, byte by byte.
    pub fn between(reply: &Reply, second: &Reply) -> Option<Disagreement> {
        if reply == second {
            return None;
        }
        Some(match (reply, second) {
            (Reply::Lines(given), Reply::Lines(due)) => {
                let (given, due) = (lines_of(given), lines_of(due));
                of_lists(&given, &due, ["line", "lines"], line_and_text)
            }
            (
                Reply::Walked { count, found },
                Reply::Walked { count: due_count, found: due_found },
            ) => {
                let mut difference = of_lists(found, due_found, ["name", "names"], |name| {
                    name_text(name) + &beside(name)
                });
                if count != due_count {
                    let sent = counted((*count).into(), "command sent", "commands sent");
                    let counts = format!("{sent}, and {due_count} by the second program");
                    difference.short = match found == due_found {
                        true => counts,
                        false => format!("{counts}; {}", difference.short),
                    };
                }
                difference
            }
            _ => {
                let (came, due) = (came_text(Some(reply)), came_text(Some(second)));
                let short = format!("it was {came}, and by the second program {due}");
                Disagreement { short, lines: lost_lines(second) }
            }
        })
    }
}

/// The lines of an answer that was given and of the one that is due, where they differ, as text.
#[derive(Clone, Debug, Default, PartialEq, Eq)]
pub struct Apart {
    /// Those that are due and were not given.
    pub missing: Vec<String>,
    /// Those that were given and are not due.
    pub added: Vec<String>,
}

impl Apart {
    pub fn between(given: &[u8], due: &[u8]) -> Apart {
        let (given, due) = (lines_of(given), lines_of(due));
        let shown = |lines: Vec<&[u8]>| lines.into_iter().map(line_and_text).collect();
        let [missing, added] =
            [those_only_in(&due, &given), those_only_in(&given, &due)].map(shown);
        Apart { missing, added }
    }
}

/// What the second program gives where the program gives a refusal.
fn lost_lines(second: &Reply) -> Vec<String> {
    match second {
        Reply::Lines(due) => {
            lines_of(due).iter().map(|line| missing(line_and_text(line))).collect()
        }
        Reply::Walked { found, .. } => {
            found.iter().map(|name| missing(name_text(name) + &beside(name))).collect()
        }
        Reply::Refused(_) | Reply::Unreadable(_) => Vec::new(),
    }
}

/// Each with its line end.
fn lines_of(answer: &[u8]) -> Vec<Vec<u8>> {
    answer.split_inclusive(|&byte| byte == b'\n').map(<[u8]>::to_vec).collect()
}

fn line_and_text(line: &[u8]) -> String {
    let line = line.strip_suffix(b"\r\n").unwrap_or(line);
    line_text(line) + &beside_line(line)
}

fn of_lists(
    given: &[Vec<u8>],
    due: &[Vec<u8>],
    kind: [&str; 2],
    shown: impl Fn(&[u8]) -> String,
) -> Disagreement {
    let lost = those_only_in(due, given);
    let added = those_only_in(given, due);
    let kinds = |count: usize| counted(count, kind[0], kind[1]);
    let short = match (lost.len(), added.len()) {
        (0, 0) => format!("the {} stand in another order", kind[1]),
        (lost, 0) => format!("{} missing", kinds(lost)),
        (0, added) => format!("{} added", kinds(added)),
        (lost, added) => format!("{} missing, {} added", kinds(lost), kinds(added)),
    };
    let lost = lost.into_iter().map(|line| missing(shown(line)));
    let added = added.into_iter().map(|line| format!("added: {}", shown(line)));
    Disagreement { short, lines: lost.chain(added).collect() }
}

fn missing(text: String) -> String {
    format!("missing: {text}")
}

/// What one list has more often than the other, in its order.
fn those_only_in<'l>(one: &'l [Vec<u8>], other: &[Vec<u8>]) -> Vec<&'l [u8]> {
    let mut left: BTreeMap<&[u8], usize> = BTreeMap::new();
    for line in other {
        *left.entry(line).or_default() += 1;
    }
    let mut only = Vec::new();
    for line in one {
        match left.get_mut(line.as_slice()) {
            Some(count) if *count > 0 => *count -= 1,
            _ => only.push(line.as_slice()),
        }
    }
    only
}
