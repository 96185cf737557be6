//! The comparison with the second program: sessions from seeded generators, answered by a program
//! of frames and by the second program, answer line for answer line; and, in `library`, the proved
//! library and the second program's, call for call.
//!
//! A session has a process of its own, since a program never forgets a stored row.

pub mod commands;
pub mod compactions;
pub mod damage;
pub mod edit_series;
mod edit_sessions;
pub mod edits;
pub mod gains;
pub mod join_parts;
pub mod joins;
mod kinds;
mod levels;
#[cfg(feature = "library")]
pub mod library;
mod limits;
mod literals;
pub mod log_frames;
pub mod lsub;
pub mod more_patterns;
pub mod own_commands;
pub mod random;
pub mod reached;
mod reader_sessions;
pub mod readers;
pub mod records;
pub mod replays;
mod report;
pub mod requests;
mod sending;
mod special_uses;
pub mod streams;
mod strings;
pub mod subjects;
pub mod summaries;
pub mod tables;
pub mod trials;
mod walks;

use std::path::Path;
use std::process::ExitCode;

use child::{sender_of, Running, PATIENCE};
use formats::frames::{Frame, SentFrame};
use second::collector::WALK_REFUSALS;
use second::fault::Fault;
use second::frames::{Answer, Program};
use second::Refusal;

pub use kinds::{kinds, Kind};

use reached::Reached;
use report::{difference_text, explanation_text, failure_text};
use trials::{given_of, read_by_second};

/// The status of a wrong call.
const WRONG_CALL: u8 = 2;

/// Tells what is wrong with a call of a program, and gives its status.
pub fn wrong_call(message: &str) -> ExitCode {
    eprintln!("{message}");
    ExitCode::from(WRONG_CALL)
}

/// Runs the session of a kind and a seed, and gives what the claims of a law reached in the program's
/// answers. The error is what differed, or which claim does not hold, as text.
pub fn compare_session(program: &Path, kind: Kind, seed: u64) -> Result<Reached, String> {
    let (session, trial) = kind.session_and_trial(seed);
    let compared = compare_frames(program, &session);
    let judged = compared.and_then(|answers| match trial {
        Some(trial) => trial.judge(&given_of(&answers)?, read_by_second),
        None => Ok(Reached::default()),
    });
    judged.map_err(|text| format!("kind '{}', seed {seed}: {text}", kind.name))
}

/// Gives the program's answer lines, which are those of the second program.
fn compare_frames(program: &Path, session: &[SentFrame]) -> Result<Vec<Vec<u8>>, String> {
    let mut second = Program::default();
    let mut answers = Vec::new();
    let running = Running::start(program, PATIENCE, sender_of(session));
    let mut running = running.map_err(failure_text)?;
    for (at, frame) in session.iter().enumerate() {
        let fault = second.fault(&frame.text);
        let answer = if frame.is_cut {
            Some(Answer::Refused(Refusal::Frame))
        } else {
            second.answer(&frame.text)
        };
        let Some(expected) = answer.as_ref().map(Answer::to_line) else {
            continue;
        };
        match running.next_line() {
            Ok(Some(line)) if line == expected => answers.push(line),
            actual => return Err(difference_text(session, at, &second, &expected, &actual)),
        }
        if answer.as_ref().is_some_and(|answer| is_no_walk_refusal(frame, answer)) {
            return Err(format!(
                "frame {}: a walk is refused with {}\n",
                at + 1,
                expected.escape_ascii()
            ));
        }
        if !frame.is_cut && answer.is_some_and(|answer| !is_explained(&answer, fault)) {
            return Err(explanation_text(session, at, &second, fault));
        }
    }
    running.finish().map_err(failure_text)?;
    Ok(answers)
}

/// A walk that is refused with another number than the six that the collector gives (document 02, W12).
fn is_no_walk_refusal(frame: &SentFrame, answer: &Answer) -> bool {
    let is_walk = matches!(Frame::decode(&frame.text), Ok(Frame::Walk { .. })) && !frame.is_cut;
    let is_other = |refusal| !WALK_REFUSALS.contains(refusal);
    is_walk && matches!(answer, Answer::Refused(refusal) if is_other(refusal))
}

/// A refusal has its explanation and an answer has none. Of a buffer that is too small there is
/// nothing to explain.
fn is_explained(answer: &Answer, fault: Option<Fault>) -> bool {
    let rooms = [Refusal::AnswerRoom, Refusal::FoundRoom, Refusal::PendingRoom];
    match answer {
        Answer::Refused(refusal) if rooms.contains(refusal) => fault.is_none(),
        Answer::Refused(refusal) => fault.is_some_and(|fault| fault.refusal() == *refusal),
        Answer::Lines(_) | Answer::Walked { .. } => fault.is_none(),
    }
}
