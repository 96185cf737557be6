//! Two requests made one (document 02, W11): "Without RECURSIVEMATCH, and if all three commands are
//! extended and accepted, the LIST lines of the joined command are those of the two merged in name order
//! with equal lines once. Joining is indifferent to order, to grouping, and to joining a list with itself,
//! where that is accepted."

use std::collections::BTreeSet;

use second::command::MAX_PATTERNS;
use second::shape::MAX_LINE;
use second::Refusal;

use crate::commands::some_tag;
use crate::random::Random;
use crate::reached::Reached;
use crate::requests::Request;
use crate::subjects::Subject;
use crate::tables::NewRow;
use crate::trials::{accepted, Answered, Claim, Law, Listing, Trial, JUDGED};

/// Lists of patterns, three at a time, over one table.
const TRIPLES: usize = 10;
/// The most patterns of a list whose join with itself and another is accepted.
const FEW: usize = 2;
/// Percent of the triples that have more, so that joins are refused, and how long each pattern then is, so
/// that the commands are refused for nothing else.
const MANY: usize = 10;
const SHORT: usize = 20;

const ORDER: &str = "another order";
const GROUPING: &str = "another grouping";
const ITSELF: &str = "a list with itself";
const RECURSIVE: &str = " under RECURSIVEMATCH";
const REFUSED: &str = "a join is refused with 8";
/// That the merge fails where its premise does: so the premise is needed.
const NO_MERGE: &str = "the merge does not hold under RECURSIVEMATCH";

pub const LAW: Law = Law { trial, needed };

fn needed() -> Vec<String> {
    let merges = [NO_MERGE, REFUSED, "both list a name", "each lists a name of its own"];
    let merges = merges.map(str::to_string).into_iter();
    merges.chain([ORDER, GROUPING, ITSELF].into_iter().flat_map(same_texts)).collect()
}

/// What the claims that lines are the same reach, without RECURSIVEMATCH and with it.
fn same_texts(what: &str) -> [String; 2] {
    [what.to_string(), format!("{what}{RECURSIVE}")]
}

/// A command of the trial, and how many patterns it has.
#[derive(Clone, Copy)]
struct Sent {
    at: usize,
    patterns: usize,
}

/// Two commands, and the one that has the patterns of both.
struct Merge {
    parts: [Sent; 2],
    joined: Sent,
    recursive_match: bool,
}

/// Two commands that must have the same lines.
struct Same {
    sent: [Sent; 2],
    what: &'static str,
    recursive_match: bool,
}

/// Writes the line of a request.
pub type Write = fn(&Request, &mut Random) -> Vec<u8>;

fn trial(random: &mut Random) -> Trial {
    trial_with(random, Request::line)
}

/// A trial whose joined commands are written so; those that they are joined from are in any spelling.
pub fn trial_with(random: &mut Random, join: Write) -> Trial {
    let subject = Subject::some(random);
    let mut trial = Trial::over(subject.rows.clone());
    for _ in 0..TRIPLES {
        let (request, about) = subject.some_request(random);
        let is_many = random.percent(MANY);
        let lists = [(); 3].map(|()| {
            let count =
                if is_many { random.within(FEW..=MAX_PATTERNS) } else { random.within(1..=FEW) };
            let mut list = subject.some_patterns(random, &about, &request.reference, count);
            if is_many {
                list.iter_mut().for_each(|pattern| pattern.truncate(SHORT));
            }
            list
        });
        claim_all(&mut trial, random, &request, &lists, join);
    }
    trial
}

/// The line of a request by a writer of joined commands, which takes a tag, the request and a buffer. A
/// request of too many patterns must be refused with 8; it is then sent in another spelling. Another refusal
/// gives no line, which no claim takes.
pub fn joined_line(
    request: &Request,
    random: &mut Random,
    join: impl Fn(&[u8], &Request, &mut [u8]) -> Result<usize, u8>,
) -> Vec<u8> {
    let mut out = [0; MAX_LINE];
    let is_too_many = request.patterns.len() > MAX_PATTERNS;
    match join(some_tag(random), request, &mut out) {
        Ok(length) => out[..length].to_vec(),
        Err(number) if is_too_many && number == Refusal::Patterns.number() => request.line(random),
        Err(_) => Vec::new(),
    }
}

/// A list of patterns.
type List = Vec<Vec<u8>>;

/// The patterns of the first, then those of the second.
fn join(one: &List, other: &List) -> List {
    [one.as_slice(), other].concat()
}

/// What holds of three lists of patterns for one request.
fn claim_all(
    trial: &mut Trial,
    random: &mut Random,
    request: &Request,
    lists: &[List; 3],
    join_line: Write,
) {
    let [a, b, c] = lists;
    let mut write = |write: Write, list: &List| {
        let line = write(&request.with(list.clone()), random);
        Sent { at: trial.ask(request.reader.number(), line), patterns: list.len() }
    };
    let [one, two, three] = [a, b, c].map(|list| write(Request::line, list));
    let mut send = |list: &List| write(join_line, list);
    let (ab, ba, bc) = (join(a, b), join(b, a), join(b, c));
    let [one_two, two_one, two_three] = [&ab, &ba, &bc].map(&mut send);
    // The patterns of both groupings are the same list: what differs is how the commands are written.
    let [left, right, turned] =
        [join(&ab, c), join(a, &bc), join(c, &ba)].each_ref().map(&mut send);
    let [twice, twice_both] = [join(a, a), join(&ab, &ab)].each_ref().map(&mut send);
    let merges = [
        ([one, two], one_two),
        ([two, one], two_one),
        ([two, three], two_three),
        ([one_two, three], left),
        ([one, two_three], right),
        ([one, one], twice),
    ];
    let same = [
        ([one_two, two_one], ORDER),
        ([left, turned], ORDER),
        ([left, right], GROUPING),
        ([one, twice], ITSELF),
        ([one_two, twice_both], ITSELF),
    ];
    push_claims(trial, &merges, &same, request.options.selection.recursive_match);
}

fn push_claims(
    trial: &mut Trial,
    merges: &[([Sent; 2], Sent)],
    same: &[([Sent; 2], &'static str)],
    recursive_match: bool,
) {
    for &(parts, joined) in merges {
        trial.claims.push(Box::new(Merge { parts, joined, recursive_match }));
    }
    for &(sent, what) in same {
        trial.claims.push(Box::new(Same { sent, what, recursive_match }));
    }
}

impl Sent {
    /// Its lines; none if it is refused for the number of its patterns, and then it must be.
    fn lines(self, answers: &[Answered]) -> Result<Option<&Listing>, String> {
        if self.patterns <= MAX_PATTERNS {
            return accepted(answers, self.at).map(Some);
        }
        let refused = answers[self.at].as_ref().err();
        if refused == Some(&Refusal::Patterns.number()) {
            return Ok(None);
        }
        Err(format!("command {} has {} patterns, and {refused:?}", self.at + 1, self.patterns))
    }
}

/// Lines in the order of an answer: by the name that is read.
fn lines_of(listing: &Listing) -> impl Iterator<Item = (&[u8], &[u8])> {
    listing.iter().map(|(name, listed)| (name.as_slice(), listed.bytes.as_slice()))
}

impl Claim for Merge {
    fn places(&self) -> Vec<usize> {
        let [one, other] = self.parts;
        vec![one.at, other.at, self.joined.at]
    }

    fn judge(&self, _: &[NewRow], answers: &[Answered]) -> Result<Reached, String> {
        let mut reached = Reached::default();
        let [one, other] = self.parts.map(|sent| sent.lines(answers));
        let (Some(one), Some(other), Some(joined)) = (one?, other?, self.joined.lines(answers)?)
        else {
            reached.add(REFUSED);
            return Ok(reached);
        };
        let merged: BTreeSet<(&[u8], &[u8])> = lines_of(one).chain(lines_of(other)).collect();
        let holds = merged.into_iter().eq(lines_of(joined));
        if self.recursive_match {
            reached.add(if holds { "the merge holds under RECURSIVEMATCH" } else { NO_MERGE });
            return Ok(reached);
        }
        if !holds {
            return Err("the joined lines are not those of the two merged".to_string());
        }
        let has_own =
            |one: &Listing, other: &Listing| one.keys().any(|name| !other.contains_key(name));
        reached.add_held([
            (JUDGED, true),
            ("the join lists a name", !joined.is_empty()),
            ("both list a name", one.keys().any(|name| other.contains_key(name))),
            ("each lists a name of its own", has_own(one, other) && has_own(other, one)),
        ]);
        Ok(reached)
    }
}

impl Claim for Same {
    fn places(&self) -> Vec<usize> {
        self.sent.map(|sent| sent.at).to_vec()
    }

    /// Answers without lines are the same, and show nothing.
    fn judge(&self, _: &[NewRow], answers: &[Answered]) -> Result<Reached, String> {
        let mut reached = Reached::default();
        let [one, other] = self.sent.map(|sent| sent.lines(answers));
        let (Some(one), Some(other)) = (one?, other?) else {
            reached.add(REFUSED);
            return Ok(reached);
        };
        if one != other {
            return Err(format!("{} gives other lines", self.what));
        }
        if !one.is_empty() {
            let [without, with] = same_texts(self.what);
            reached.add(if self.recursive_match { with } else { without });
        }
        Ok(reached)
    }
}
