//! What the second program says of one command over what is stored, for tools that run no session.

use formats::frames::{Frame, SentFrame};
use formats::item::{Origin, Sent};
use formats::reply::Reply;
use formats::text::line_text;
use second::frames::Program;

use crate::difference::{Apart, Disagreement};
use crate::second_program::stored::Stored;

/// What the second program says of a command: whether its own answer is another one than the one that is given, why that
/// is a refusal, what an edit does, which rows are hidden, and why each line is there that was not recorded. All three
/// are frames without LF, the answers in upper case.
pub fn second_says(program: Program, command: &[u8], given: &[u8], recorded: &[u8]) -> Vec<String> {
    let frame = SentFrame { text: command.to_vec(), is_cut: false };
    let sent = Sent { frame, length: command.len() as u64, origin: Origin::Other, expected: None };
    let (frame, given) = (Frame::decode(command).ok(), Reply::of(given));
    let mut stored = Stored::of_program(program);
    let second = stored.answer(&sent);
    let mut lines = differing(&given, &second.0);
    match &given {
        Reply::Refused(number) => lines.push(stored.explanation(&sent, *number)),
        Reply::Lines(answer) => {
            let whys = whys(&stored, frame.as_ref(), answer, &Reply::of(recorded));
            let hidden = stored.hidden(frame.as_ref()).unwrap_or_default();
            lines.extend(stored.follow(frame.as_ref(), second));
            lines.extend(hidden.into_iter().map(|row| format!("hidden: {row}")));
            lines.extend(whys);
        }
        Reply::Walked { .. } | Reply::Unreadable(_) => {}
    }
    lines
}

/// How the second program's own answer is another one, if it is.
fn differing(given: &Reply, second: &Reply) -> Vec<String> {
    let difference = Disagreement::between(given, second);
    difference.map_or(Vec::new(), |Disagreement { short, lines }| {
        let short = format!("the programs differ: {short}");
        [short].into_iter().chain(lines).collect()
    })
}

/// Why each line is there that the recorded answer has not.
fn whys(stored: &Stored, frame: Option<&Frame>, answer: &[u8], recorded: &Reply) -> Vec<String> {
    let recorded = match recorded {
        Reply::Lines(lines) => lines.as_slice(),
        _ => b"",
    };
    let missing = Apart::between(recorded, answer).missing;
    let explained = stored.explained_lines(frame, answer).into_iter();
    let text = explained.filter_map(|one| Some((line_text(&one.line), one.why?.text)));
    let is_missing = |line: &String| missing.iter().any(|other| other.starts_with(line.as_str()));
    text.filter(|(line, _)| is_missing(line)).map(|(line, why)| format!("{line}: {why}")).collect()
}
