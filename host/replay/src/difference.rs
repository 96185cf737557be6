//! A command whose recorded answer is not what the library answers now.

use formats::frames::{Frame, SentFrame};
use formats::log::{Exchange, Recorded};
use formats::show::{counted, refusal_text, show_frame};
use formats::text::line_text;
use session::Apart;

use crate::second_program::explained;
use crate::served::Logged;
use crate::table::KeptTable;

/// What is told of it, all as text.
#[derive(Clone, Debug, PartialEq, Eq)]
pub struct Difference {
    /// The number of the 43, and its line in the file.
    pub frame: u64,
    pub line: u64,
    /// The command, each line with its label, and who sent it.
    pub command: Vec<(&'static str, String)>,
    pub recorded: Vec<String>,
    pub now: Vec<String>,
    /// In a few words.
    pub short: String,
    /// Lines that are answered now and that the log has not; and the other way round.
    pub missing: Vec<String>,
    pub too_much: Vec<String>,
    /// By the second program, not proved.
    pub explained: Vec<String>,
    /// What the server's own log has of the command.
    pub logged: Option<Logged>,
}

impl Difference {
    /// What differs of an exchange, over the table as it was before the command; none where the library answers what was
    /// recorded.
    pub fn of(
        exchange: &Exchange,
        before: &KeptTable,
        rows: &[u8],
        namespaces: &[u8],
    ) -> Option<Difference> {
        let Exchange { frame, reader, line, recorded } = exchange;
        let now = before.clone().answer(*reader, namespaces, line);
        if now == *recorded {
            return None;
        }
        let command = Frame::Command { reader: *reader, line: line.clone() }.encode();
        let explained = explained(before, (rows, namespaces), &command, (&now, recorded));
        let Apart { missing, added } = Apart::between(lines_of(recorded), lines_of(&now));
        let shown = show_frame(&SentFrame { text: command, is_cut: false });
        Some(Difference {
            frame: *frame,
            line: *frame,
            command: shown.lines().map(|(label, line)| (label, line.to_string())).collect(),
            short: short_text(recorded, &now, &missing, &added),
            recorded: shown_lines(recorded),
            now: shown_lines(&now),
            missing,
            too_much: added,
            explained,
            logged: None,
        })
    }

    /// About as many bytes as it takes.
    pub fn size(&self) -> usize {
        let Difference { recorded, now, missing, too_much, explained, .. } = self;
        [recorded, now, missing, too_much, explained].into_iter().flatten().map(String::len).sum()
    }
}

fn lines_of(answer: &Recorded) -> &[u8] {
    match answer {
        Recorded::Lines(lines) => lines,
        Recorded::Refused(_) => b"",
    }
}

/// Each line with what ends it where that is not CR LF.
fn shown_lines(answer: &Recorded) -> Vec<String> {
    match answer {
        Recorded::Lines(lines) if lines.is_empty() => vec!["an answer without a byte".to_string()],
        Recorded::Lines(lines) => {
            let shown = |line: &[u8]| line_text(line.strip_suffix(b"\r\n").unwrap_or(line));
            lines.split_inclusive(|&byte| byte == b'\n').map(shown).collect()
        }
        Recorded::Refused(number) => vec![format!("refused with {}", refusal_text(*number))],
    }
}

fn short_text(recorded: &Recorded, now: &Recorded, missing: &[String], added: &[String]) -> String {
    let lines = |lines: &[String]| counted(lines.len(), "line", "lines");
    match (recorded, now) {
        (Recorded::Refused(_), Recorded::Refused(_)) => "refused with another number".to_string(),
        (Recorded::Refused(_), Recorded::Lines(_)) => {
            "recorded as refused, answered now".to_string()
        }
        (Recorded::Lines(_), Recorded::Refused(_)) => {
            "recorded as answered, refused now".to_string()
        }
        _ => match (missing, added) {
            ([], []) => "the lines stand in another order".to_string(),
            (missing, []) => format!("{} missing in the log", lines(missing)),
            ([], added) => format!("{} too much in the log", lines(added)),
            _ => format!("{} missing, {} too much in the log", lines(missing), lines(added)),
        },
    }
}
