//! The table that a session file or a file of frames makes: its rows, with the edits after them.
//!
//! Rows are taken however many bytes they have, as the library takes more than the program of frames.
//! Edits are made as the program makes them, by the second program.

use formats::frames::{Frame, ANSWER, REFUSAL};
use formats::hex::bytes_of_hex;
use formats::item::{Content, Sent};
use formats::refusal::Refusal;
use formats::session::Session;
use formats::show::{counted, refusal_text};
use formats::sizes::PROGRAM_TABLE;
use formats::source::Source;

use crate::kind::Kind;
use crate::second_program::EditedTable;

/// What was taken of a session.
#[derive(Debug, Default)]
pub struct Taken {
    /// The rows in their packed form, after the edits.
    pub rows: Vec<u8>,
    pub namespaces: Vec<u8>,
    pub left_out: Vec<String>,
    pub notes: Vec<String>,
}

const AFTER_EDIT: &str = "a row after an edit that was made, where none is taken";
const NO_ROOM: &str = "an edit, not made: the program keeps at most 16,384 bytes of rows";

/// Reads a session of one of the two kinds.
pub fn read_sent(bytes: &[u8], kind: Kind) -> Result<Taken, String> {
    let session = Session::check(Source::of_bytes(bytes)).map_err(|error| error.to_string())?;
    if session.is_frames() != (kind == Kind::Frames) {
        return Err(format!("its first line is not that of {}", kind.text()));
    }
    let mut reading = Reading::default();
    for item in session.items().map_err(|error| error.to_string())? {
        let item = item.map_err(|error| error.to_string())?;
        if let Content::Sent(sent) = item.content {
            reading.take(item.line, &sent);
        }
    }
    Ok(reading.finish())
}

/// A session as far as it was read.
#[derive(Default)]
struct Reading {
    table: EditedTable,
    edits: usize,
    answers: usize,
    left_out: Vec<String>,
    notes: Vec<String>,
}

impl Reading {
    fn take(&mut self, line: u64, sent: &Sent) {
        let frame = match sent.frame.is_cut {
            true => Err("the last frame ends with LF too"),
            false => Frame::decode(&sent.frame.text),
        };
        let is_expected = self.is_refused_as_expected(sent);
        let left_out = match frame {
            Err(_) if is_answer(sent) => {
                self.answers += 1;
                return;
            }
            _ if is_expected => {
                let text = "a row, an entry or a bad frame that is refused, as the session expects";
                return self.notes.push(format!("line {line}: {text}"));
            }
            Err(rule) => format!("a bad frame, which may have been a row: {rule}"),
            Ok(Frame::Row(_)) if self.table.is_edited() => AFTER_EDIT.to_string(),
            Ok(Frame::Row(row)) => return self.table.add_row(&row),
            Ok(Frame::Entry(entry)) => return self.table.add_entry(&entry),
            Ok(Frame::Command { line: text, .. }) if EditedTable::is_edit(&text) => {
                match self.edit(line, sent) {
                    true => return,
                    false => NO_ROOM.to_string(),
                }
            }
            Ok(Frame::Command { .. } | Frame::Walk { .. }) => return,
        };
        self.left_out.push(format!("line {line}: {left_out}"));
    }

    /// Whether the session expects a row, an entry or a bad frame to be refused, and it is.
    fn is_refused_as_expected(&self, sent: &Sent) -> bool {
        let is_question = matches!(
            Frame::decode(&sent.frame.text),
            Ok(Frame::Command { .. } | Frame::Walk { .. })
        );
        let expected = sent.expected.map(Refusal::number);
        let refusal = || self.table.refusal_of(&sent.frame.text);
        !is_question && expected.is_some() && refusal() == expected
    }

    /// Makes an edit, or notes that it is refused; false where the program could not have the table.
    fn edit(&mut self, line: u64, sent: &Sent) -> bool {
        if !self.table.is_edited() && self.table.added() > PROGRAM_TABLE {
            return false;
        }
        match self.table.edit(&sent.frame.text) {
            Ok(()) => self.edits += 1,
            Err(number) => {
                let refusal = refusal_text(number);
                self.notes.push(format!("line {line}: an edit that is refused with {refusal}"));
            }
        }
        true
    }

    fn finish(self) -> Taken {
        let Reading { table, edits, answers, left_out, mut notes } = self;
        if answers > 0 {
            let count = counted(answers, "frame is", "frames are");
            notes.push(format!("{count} recorded answers, not looked at"));
        }
        if edits > 0 {
            let count = counted(edits, "edit", "edits");
            notes.push(format!("{count} made, by the second program, not proved"));
        }
        let (rows, namespaces) = table.into_parts();
        if rows.len() > PROGRAM_TABLE {
            notes.push("over 16,384 bytes of rows, which ./run does not keep".to_string());
        }
        Taken { rows, namespaces, left_out, notes }
    }
}

/// A frame of 41 or 52, as a record of ./serve has it after each command.
fn is_answer(sent: &Sent) -> bool {
    let bytes = bytes_of_hex(&sent.frame.text).filter(|_| !sent.frame.is_cut);
    matches!(bytes.as_deref(), Some([ANSWER | REFUSAL, ..]))
}
