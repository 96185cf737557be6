//! What the sessions with LSUB reach (document 02, W5).

use second::frames::{Answer, Program};

use crate::reached::check_often;

/// The refusal's number, or the starts of the answer's lines.
fn starts_of_answer(program: &mut Program, frame: &[u8]) -> Vec<String> {
    match program.answer(frame) {
        Some(Answer::Refused(refusal)) => vec![refusal.number().to_string()],
        Some(Answer::Lines(lines)) => starts_of(&lines),
        Some(Answer::Walked { .. }) | None => Vec::new(),
    }
}

/// The lines of an answer up to the delimiter, and "nothing" for an answer of the tagged line alone.
fn starts_of(answer: &[u8]) -> Vec<String> {
    let text = String::from_utf8_lossy(answer);
    let starts: Vec<String> = text
        .lines()
        .filter_map(|line| line.split_once(" \"/\" "))
        .map(|(start, _)| start.to_string())
        .collect();
    if starts.is_empty() {
        vec!["nothing".to_string()]
    } else {
        starts
    }
}

#[test]
fn what_the_sessions_reach() {
    let (plain, level) = ("* LSUB ()", "* LSUB (\\Noselect)");
    let refusals = [("4", 100), ("5", 10), ("8", 40)];
    let lines = [(plain, 500), (level, 100), ("nothing", 50)];
    check_often("subscribed names by LSUB", &[refusals, lines].concat(), starts_of_answer);
    let limits = [("9", 15), (plain, 1_000), (level, 1_000)];
    check_often("limits of answers with LSUB", &limits, starts_of_answer);
}
