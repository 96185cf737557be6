//! What must hold between the answers to several commands (document 02, W10 and W11), and of the collector's
//! own (W12), judged over the second program's answers: the trials reach what they are about, and a wrong
//! answer does not pass.

use std::slice;

use compare::random::Random;
use compare::reached::Reached;
use compare::tables::NewRow;
use compare::trials::{given_of, read_by_second, unreached, Given, Law, Trial, JUDGED};
use compare::{gains, joins, kinds, more_patterns, own_commands};
use second::frames::Program;

const TRIALS: u64 = 400;
/// Trials whose answers are made wrong.
const WRONG: u64 = 60;

/// What the second program of frames answers to commands over rows.
fn given_by_second(random: &mut Random, rows: &[NewRow], asked: &[(u8, Vec<u8>)]) -> Vec<Given> {
    let trial = Trial { asked: asked.to_vec(), ..Trial::over(rows.to_vec()) };
    let mut program = Program::default();
    let frames = trial.frames(random);
    let answers = frames.iter().filter_map(|frame| program.answer(&frame.text));
    let lines: Vec<Vec<u8>> = answers.map(|answer| answer.to_line()).collect();
    given_of(&lines).expect("answers to commands")
}

/// A trial of a law and a seed, with what the second program answers.
fn tried(law: Law, seed: u64) -> (Trial, Vec<Given>) {
    let mut random = Random::of("laws", seed);
    let trial = (law.trial)(&mut random);
    let given = given_by_second(&mut random, &trial.rows, &trial.asked);
    (trial, given)
}

/// The claims hold, each of them was judged, and they reach what is needed, this often.
pub fn check_law(law: Law, least: &[(&str, usize)]) {
    let mut reached = Reached::default();
    for seed in 0..TRIALS {
        let (trial, given) = tried(law, seed);
        let judged = trial.judge(&given, read_by_second);
        reached.add_all(&judged.unwrap_or_else(|reason| panic!("seed {seed}: {reason}")));
    }
    assert_eq!(unreached(law.needed, &reached), [""; 0]);
    reached.check(least);
}

#[test]
fn more_patterns_lose_nothing() {
    let least = [
        (JUDGED, 9_600),
        ("a name goes", 120),
        ("a name stays by one unmatched descendant", 300),
        ("a level of W1 stays", 250),
        ("INBOX is listed in another spelling", 60),
        ("a remote row is listed", 200),
        ("several patterns more", 2_000),
    ];
    check_law(more_patterns::LAW, &least);
}

#[test]
fn gained_subscriptions_lose_nothing() {
    let least = [
        (JUDGED, 12_800),
        ("CHILDINFO comes", 30),
        ("CHILDINFO stays", 800),
        ("\\Subscribed comes", 80),
        ("a name comes", 800),
        ("a row hidden from reader 0 gains its bit", 100),
        ("a row is inserted", 1_000),
    ];
    check_law(gains::LAW, &least);
}

/// Two tables, the second of which has gained subscriptions without a command.
#[test]
fn gained_tables_lose_nothing() {
    let mut reached = Reached::default();
    for seed in 0..TRIALS {
        let mut random = Random::of("gained tables", seed);
        let (trial, rows) = gains::two_tables(&mut random);
        let (before, after) = trial.asked.split_at(trial.asked.len() / 2);
        let mut given = given_by_second(&mut random, &trial.rows, before);
        given.extend(given_by_second(&mut random, &rows, after));
        let judged = trial.judge(&given, read_by_second);
        reached.add_all(&judged.unwrap_or_else(|reason| panic!("seed {seed}: {reason}")));
    }
    assert_eq!(unreached(gains::needed_of_tables, &reached), [""; 0]);
}

#[test]
fn joined_requests_are_merged() {
    let least = [
        (JUDGED, 10_000),
        ("the merge does not hold under RECURSIVEMATCH", 100),
        ("both list a name", 1_500),
        ("each lists a name of its own", 400),
        ("a join is refused with 8", 1_000),
        ("another order", 600),
        ("another order under RECURSIVEMATCH", 500),
        ("another grouping", 300),
        ("another grouping under RECURSIVEMATCH", 300),
        ("a list with itself", 500),
        ("a list with itself under RECURSIVEMATCH", 400),
    ];
    check_law(joins::LAW, &least);
}

#[test]
fn own_commands_are_answered() {
    let least = [
        (JUDGED, 4_000),
        ("the longest own command", 20),
        ("a command below 15 levels", 150),
        ("an answer with lines", 4_000),
    ];
    check_law(own_commands::LAW, &least);
}

/// The LIST lines of an answer.
fn lines_of(given: &Given) -> Vec<Vec<u8>> {
    let Ok(answer) = given else { return Vec::new() };
    let lines = answer.split_inclusive(|&byte| byte == b'\n').map(<[u8]>::to_vec);
    lines.take_while(|line| line.starts_with(b"* ")).collect()
}

/// The answer with other LIST lines.
fn with_lines(given: &Given, lines: &[Vec<u8>]) -> Given {
    let all: usize = lines_of(given).iter().map(Vec::len).sum();
    let answer = given.as_ref().map_err(|number| *number)?;
    Ok([lines.concat(), answer[all..].to_vec()].concat())
}

fn name_of(line: &[u8]) -> Vec<u8> {
    read_by_second(line).expect("a line").name
}

/// Whether the trial is refused for this reason once an answer is another one.
fn is_refused(trial: &Trial, given: &[Given], at: usize, answer: Given, reason: &str) -> bool {
    let mut given = given.to_vec();
    given[at] = answer;
    let judged = trial.judge(&given, read_by_second);
    judged.is_err_and(|text| text.lines().next().is_some_and(|line| line.contains(reason)))
}

/// For each pair of answers of many trials: what makes one of the second's lines wrong, and the reason
/// for which the trial is refused then. Gives how often each was tried.
fn check_wrong(
    law: Law,
    wrong: impl Fn(&[Vec<u8>], &[Vec<u8>]) -> Option<Vec<Vec<u8>>>,
    reason: &str,
) {
    let mut tried_often = 0;
    for seed in 0..WRONG {
        let (trial, given) = tried(law, seed);
        for places in trial.claims.iter().map(|claim| claim.places()) {
            let [before, after] = places[..] else { continue };
            let [one, other] = [before, after].map(|at| lines_of(&given[at]));
            if let Some(lines) = wrong(&one, &other) {
                let answer = with_lines(&given[after], &lines);
                assert!(is_refused(&trial, &given, after, answer, reason), "seed {seed}, {after}");
                tried_often += 1;
            }
        }
    }
    assert!(tried_often >= 15, "{reason}: {tried_often}");
}

/// The second's lines without the first that the first command has listed too.
fn without_one(before: &[Vec<u8>], after: &[Vec<u8>]) -> Option<Vec<Vec<u8>>> {
    let is_old = |line: &Vec<u8>| before.iter().any(|one| name_of(one) == name_of(line));
    let at = after.iter().position(is_old)?;
    let mut lines = after.to_vec();
    lines.remove(at);
    Some(lines)
}

#[test]
fn a_lost_name_does_not_pass() {
    check_wrong(more_patterns::LAW, without_one, "is lost");
    check_wrong(gains::LAW, without_one, "is lost");
}

#[test]
fn a_name_that_should_go_does_not_pass() {
    let with_gone = |before: &[Vec<u8>], after: &[Vec<u8>]| {
        let is_gone = |line: &&Vec<u8>| after.iter().all(|one| name_of(one) != name_of(line));
        let gone = before.iter().find(is_gone)?;
        let mut lines = [after, slice::from_ref(gone)].concat();
        lines.sort_by_key(|line| name_of(line));
        Some(lines)
    };
    check_wrong(more_patterns::LAW, with_gone, "stays, though");
}

#[test]
fn another_line_does_not_pass() {
    let with_another = |before: &[Vec<u8>], after: &[Vec<u8>]| {
        let at = after.iter().position(|line| before.contains(line))?;
        let mut lines = after.to_vec();
        let line = String::from_utf8(lines[at].clone()).expect("text");
        lines[at] =
            line.replacen("LIST (", "LIST (\\Marked ", 1).replace("Marked )", "Marked)").into();
        read_by_second(&lines[at]).map(|_| lines)
    };
    check_wrong(more_patterns::LAW, with_another, "stays with another line");
}

#[test]
fn a_lost_childinfo_does_not_pass() {
    let without_childinfo = |before: &[Vec<u8>], after: &[Vec<u8>]| {
        let has = |line: &[u8]| !read_by_second(line).expect("a line").childinfo.is_empty();
        let had = |name: &[u8]| before.iter().any(|line| has(line) && name_of(line) == name);
        let at = after.iter().position(|line| had(&name_of(line)))?;
        let mut lines = after.to_vec();
        let text = b" (\"CHILDINFO\"";
        let start = lines[at].windows(text.len()).rposition(|part| part == text)?;
        lines[at].truncate(start);
        lines[at].extend_from_slice(b"\r\n");
        Some(lines)
    };
    check_wrong(gains::LAW, without_childinfo, "CHILDINFO of");
}

/// Whether a command selects RECURSIVEMATCH.
fn is_recursive(line: &[u8]) -> bool {
    let word = b"RECURSIVEMATCH";
    line.windows(word.len()).any(|part| part.eq_ignore_ascii_case(word))
}

/// A line less in the last of two answers that must be the same, or in that of a join without
/// RECURSIVEMATCH.
#[test]
fn a_wrong_join_does_not_pass() {
    let mut reached = Reached::default();
    for seed in 0..WRONG {
        let (trial, given) = tried(joins::LAW, seed);
        for places in trial.claims.iter().map(|claim| claim.places()) {
            let (&last, others) = places.split_last().expect("places");
            let lines = lines_of(&given[last]);
            let is_free = others.len() == 2 && is_recursive(&trial.asked[last].1);
            if lines.is_empty() || is_free || others.contains(&last) {
                continue;
            }
            let mut wrong = given.clone();
            wrong[last] = with_lines(&given[last], &lines[1..]);
            let reason = trial.judge(&wrong, read_by_second).expect_err("a wrong join");
            reached.add(reason.lines().next().expect("a line"));
        }
    }
    reached.check(&[
        ("the joined lines are not those of the two merged", 50),
        ("another order gives other lines", 10),
        ("another grouping gives other lines", 10),
        ("a list with itself gives other lines", 10),
    ]);
}

/// Any refusal of an own command but 9.
#[test]
fn a_refused_own_command_does_not_pass() {
    let (trial, given) = tried(own_commands::LAW, 0);
    for number in (1..=16).filter(|&number| number != 9) {
        let reason = format!("an own command is refused with {number}");
        assert!(is_refused(&trial, &given, 0, Err(number), &reason));
    }
    assert!(!is_refused(&trial, &given, 0, Err(9), ""));
}

/// A refusal with 8, a line that is no line, and an answer too few.
#[test]
fn no_answer_does_not_pass() {
    for kind in kinds().filter_map(|kind| kind.law()) {
        let (trial, given) = tried(kind, 0);
        let at = trial.claims[0].places()[0];
        assert!(is_refused(&trial, &given, at, Err(8), "is refused with 8"));
        let no_line = Ok(b"* LIST () \"/\" Foo\r\na OK done\r\n".to_vec());
        assert!(is_refused(&trial, &given, at, no_line, "a line is not read"));
        let twice = Ok(b"* LIST () \"/\" \"Foo\"\r\n".repeat(2));
        assert!(is_refused(&trial, &given, at, twice, "lines do not ascend"));
        assert!(trial.judge(&given[1..], read_by_second).is_err());
    }
}

/// Claims enough that reach nothing do not pass, fewer may.
#[test]
fn what_is_not_reached() {
    for law in kinds().filter_map(|kind| kind.law()) {
        let mut reached = Reached::default();
        (0..1_999).for_each(|_| reached.add(JUDGED));
        assert_eq!(unreached(law.needed, &reached), [""; 0]);
        reached.add(JUDGED);
        assert_eq!(unreached(law.needed, &reached), (law.needed)());
        assert!((law.needed)().len() > 2);
    }
}
