//! One more pattern, or several (document 02, W10): "for one table, one reader, one reference and one set
//! of options, both commands extended and accepted, the second with a pattern more: without
//! RECURSIVEMATCH, every name listed before is listed after. With RECURSIVEMATCH the same holds, except
//! for a name that did not meet the criteria; that one goes exactly if each of its meeting descendants now
//! matches a pattern."

use formats::name;
use formats::name::INBOX;
use formats::readers::Reader;
use formats::rows::Flags;
use second::command::{Selection, MAX_PATTERNS};
use second::{matches, meets_criteria};

use crate::random::Random;
use crate::reached::Reached;
use crate::report::shown;
use crate::requests::Request;
use crate::subjects::Subject;
use crate::tables::NewRow;
use crate::trials::{accepted, Answered, Claim, Law, Listed, Listing, Trial, JUDGED};

/// Pairs of commands over one table.
const PAIRS: usize = 24;
/// The most patterns of the first command.
const FIRST: usize = 3;

/// Percent of the pairs to which SUBSCRIBED and RECURSIVEMATCH are added.
const RECURSIVE: usize = 30;

/// What pairs must have among them.
const NEEDED: [&str; 8] = [
    "a name goes",
    "a name stays by one unmatched descendant",
    "a level of W1 stays",
    "INBOX is listed in another spelling",
    "a remote row is listed",
    "a name comes",
    "one pattern more",
    "several patterns more",
];

pub const LAW: Law = Law { trial, needed };

fn needed() -> Vec<String> {
    let hidden = Reader::all().filter(|reader| *reader != Reader::EDITOR).map(hidden_text);
    NEEDED.map(str::to_string).into_iter().chain(hidden).collect()
}

/// What a pair reaches in which a hidden row would be listed, were it seen.
fn hidden_text(reader: Reader) -> String {
    format!("a matching row is hidden from reader {}", reader.number())
}

/// Two commands that differ in their patterns, of which the second has those of the first and more.
struct Pair {
    places: [usize; 2],
    requests: [Request; 2],
}

fn trial(random: &mut Random) -> Trial {
    let subject = Subject::some(random);
    let mut trial = Trial::over(subject.rows.clone());
    for _ in 0..PAIRS {
        let requests = pair(random, &subject);
        let places = requests.each_ref().map(|request| {
            let line = request.line(random);
            trial.ask(request.reader.number(), line)
        });
        trial.claims.push(Box::new(Pair { places, requests }));
    }
    trial
}

/// The second command has one pattern more at some place, or several, in any order.
fn pair(random: &mut Random, subject: &Subject) -> [Request; 2] {
    let (mut request, about) = subject.some_request(random);
    if random.percent(RECURSIVE) {
        request.options.selection.subscribed = true;
        request.options.selection.recursive_match = true;
    }
    let count = random.within(1..=FIRST);
    let first = subject.some_patterns(random, &about, &request.reference, count);
    let count = if random.percent(70) { 1 } else { random.within(2..=MAX_PATTERNS - FIRST) };
    let more = subject.some_patterns(random, &about, &request.reference, count);
    let mut second = first.clone();
    for pattern in more {
        second.insert(random.below(second.len() + 1), pattern);
    }
    if count > 1 && random.percent(50) {
        random.shuffle(&mut second);
    }
    [request.with(first), request.with(second)]
}

/// Why a name is listed.
enum Cause {
    /// It meets the criteria.
    Meets,
    /// It is a level of W1.
    Level,
    /// RECURSIVEMATCH: how many of its descendants that meet the criteria match no pattern of the second
    /// command.
    Below { unmatched: usize },
}

impl Claim for Pair {
    fn places(&self) -> Vec<usize> {
        self.places.to_vec()
    }

    fn judge(&self, rows: &[NewRow], answers: &[Answered]) -> Result<Reached, String> {
        let [before, after] = self.places.map(|at| accepted(answers, at));
        let (before, after) = (before?, after?);
        let mut reached = Reached::default();
        for (name, listed) in before {
            let kept = after.get(name);
            match (self.cause(rows, name), kept) {
                (Cause::Below { unmatched: 0 }, None) => reached.add("a name goes"),
                (Cause::Below { unmatched: 0 }, Some(_)) => {
                    let reason = "stays, though each of its meeting descendants matches a pattern";
                    return Err(format!("{} {reason}", shown(name)));
                }
                (_, None) => return Err(format!("{} is lost", shown(name))),
                (cause, Some(kept)) => {
                    check_kept(name, listed, kept)?;
                    reached.add_held([
                        (
                            "a name stays by one unmatched descendant",
                            matches!(cause, Cause::Below { unmatched: 1 }),
                        ),
                        ("a level of W1 stays", matches!(cause, Cause::Level)),
                    ]);
                }
            }
        }
        self.add_kinds(&mut reached, rows, before, after);
        reached.add(JUDGED);
        Ok(reached)
    }
}

/// "a listed name's line does not hang on the patterns"
fn check_kept(name: &[u8], before: &Listed, after: &Listed) -> Result<(), String> {
    if before.bytes == after.bytes {
        return Ok(());
    }
    Err(format!("{} stays with another line", shown(name)))
}

fn meets(row: &NewRow, selection: Selection) -> bool {
    meets_criteria(second::rows::Flags::from_bits(row.flags.bits()), selection)
}

impl Pair {
    fn selection(&self) -> Selection {
        self.requests[0].options.selection
    }

    fn seen<'r>(&self, rows: &'r [NewRow]) -> impl Iterator<Item = &'r NewRow> {
        let reader = self.requests[0].reader;
        rows.iter().filter(move |row| row.readers.has(reader))
    }

    fn cause(&self, rows: &[NewRow], name: &[u8]) -> Cause {
        let selection = self.selection();
        let meets = |row: &&NewRow| meets(row, selection);
        if self.seen(rows).any(|row| row.name == name && meets(&row)) {
            return Cause::Meets;
        }
        if !selection.recursive_match {
            return Cause::Level;
        }
        let prefix = name::descendant_prefix(name);
        let below = self.seen(rows).filter(|row| row.name.starts_with(&prefix));
        let unmatched = below.filter(meets).filter(|row| !self.requests[1].matches(&row.name));
        Cause::Below { unmatched: unmatched.count() }
    }

    fn add_kinds(&self, reached: &mut Reached, rows: &[NewRow], before: &Listing, after: &Listing) {
        let [first, second] = &self.requests;
        let raised = |pattern: &Vec<u8>| {
            pattern.iter().any(u8::is_ascii_lowercase) && matches(pattern, INBOX)
        };
        let is_listed_remote =
            |row: &NewRow| row.flags.has(Flags::REMOTE) && before.contains_key(&row.name);
        let more = second.patterns.len() - first.patterns.len();
        reached.add_held([
            (
                "INBOX is listed in another spelling",
                before.contains_key(INBOX) && first.canonical_patterns().iter().any(raised),
            ),
            ("a remote row is listed", self.seen(rows).any(is_listed_remote)),
            ("a name comes", after.keys().any(|name| !before.contains_key(name))),
            ("one pattern more", more == 1),
            ("several patterns more", more > 1),
        ]);
        let would_be_listed = |row: &NewRow| {
            !row.readers.has(first.reader)
                && second.matches(&row.name)
                && meets(row, self.selection())
        };
        if rows.iter().any(would_be_listed) {
            reached.add(hidden_text(first.reader));
        }
    }
}
