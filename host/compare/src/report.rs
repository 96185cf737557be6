//! A difference as text.

use std::io;

use formats::frames::{Frame, SentFrame};
use formats::show::{show_answer, show_frame, show_namespaces, show_table, Shown};
use second::fault::Fault;
use second::frames::Program;
use second::Record;

use crate::records::Layout;

/// Equal bytes at an end that are counted, not shown.
const FEWEST_COUNTED: usize = 8;

/// A frame that is answered differently: what was sent, and both answers.
pub fn difference_text(
    session: &[SentFrame],
    at: usize,
    second: &Program,
    expected: &[u8],
    actual: &io::Result<Option<Vec<u8>>>,
) -> String {
    let place = format!("frame {} of {} is answered differently\n", at + 1, session.len());
    let answers = [
        ("The second program answers", answer_text(expected)),
        ("The program answers", actual_text(actual)),
    ];
    place + &sent_text(session, at, second) + &parts_text(&answers)
}

/// A frame that both programs answer alike, and that is explained otherwise.
pub fn explanation_text(
    session: &[SentFrame],
    at: usize,
    second: &Program,
    fault: Option<Fault>,
) -> String {
    let place = format!("frame {} of {} is explained wrongly\n", at + 1, session.len());
    let explained = [("The explanation", format!("{fault:?}\n"))];
    place + &sent_text(session, at, second) + &parts_text(&explained)
}

/// The frame, and what was sent before it.
fn sent_text(session: &[SentFrame], at: usize, second: &Program) -> String {
    let before: String =
        session[..at].iter().filter(|frame| !is_stored(frame)).map(frame_text).collect();
    parts_text(&[
        ("The stored table", shown_if_any(&second.table, show_table)),
        ("The records, since an edit", second.store.as_ref().map(show_held).unwrap_or_default()),
        ("The stored namespace list", shown_if_any(&second.namespaces, show_namespaces)),
        ("The frames before it, without rows and entries", before),
        ("The frame", frame_text(&session[at])),
    ])
}

/// Each part that is not empty, after its heading.
fn parts_text(parts: &[(&str, String)]) -> String {
    let parts = parts.iter().filter(|(_, part)| !part.is_empty());
    parts.map(|(heading, part)| format!("{heading}\n{part}")).collect()
}

/// A program that cannot be started, does not answer or does not end well.
pub fn failure_text(error: io::Error) -> String {
    format!("the program failed: {error}\n")
}

/// Rows and entries stand in the stored table and list.
fn is_stored(frame: &SentFrame) -> bool {
    matches!(Frame::decode(&frame.text), Ok(Frame::Row(_) | Frame::Entry(_)))
}

fn frame_text(frame: &SentFrame) -> String {
    show_frame(frame).to_string()
}

fn shown_if_any(stored: &[u8], show: fn(&[u8]) -> Shown) -> String {
    if stored.is_empty() {
        String::new()
    } else {
        show(stored).to_string()
    }
}

/// What came in place of the answer line: another line, the end of the output, or a failure.
fn actual_text(actual: &io::Result<Option<Vec<u8>>>) -> String {
    match actual {
        Ok(Some(line)) => answer_text(line),
        Ok(None) => "Nothing\n".to_string(),
        Err(error) => format!("Nothing: {error}\n"),
    }
}

/// An answer line, with its LF or without one.
fn answer_text(line: &[u8]) -> String {
    match line.strip_suffix(b"\n") {
        Some(answer) => show_answer(answer).to_string(),
        None => format!("{}without LF\n", show_answer(line)),
    }
}

/// The records, spare ones too, each with its number of the summary, and the area, a line each.
pub fn show_layout(Layout { records, count, area, summary }: &Layout) -> String {
    let (held, numbers) = (records.len(), summary.len());
    let mut text =
        format!("{count} of {held} records over {} bytes, with {numbers} numbers\n", area.len());
    for (at, Record { flags, start, len, readers }) in records.iter().enumerate() {
        let number = summary.get(at).map(|summary| format!(", summary {:016X}", summary.number()));
        text += &format!(
            "    flags {flags:04X}, start {start}, length {len}, readers {readers:02X}{}\n",
            number.unwrap_or_default()
        );
    }
    text + &format!("    area {}\n", shown(area))
}

/// The same without spare records.
fn show_held(layout: &Layout) -> String {
    let mut held = layout.clone();
    held.records.truncate(held.count);
    held.summary.truncate(held.count);
    show_layout(&held)
}

/// Bytes as text in quotes; the equal bytes that they end with are counted instead.
pub fn shown(bytes: &[u8]) -> String {
    let Some(&last) = bytes.last() else {
        return "\"\"".to_string();
    };
    let rest = bytes.iter().rposition(|&byte| byte != last).map_or(0, |at| at + 1);
    let times = bytes.len() - rest;
    if times < FEWEST_COUNTED {
        return format!("\"{}\"", bytes.escape_ascii());
    }
    format!("\"{}\" and {times} times \"{}\"", bytes[..rest].escape_ascii(), last.escape_ascii())
}
