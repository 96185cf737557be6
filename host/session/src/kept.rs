//! What the program of frames keeps, by its rules for frames and by its own answers: rows and entries as long as they fit,
//! and the edits that it accepted, after the first of which it takes no row.

use formats::frames::Frame;
use formats::sizes::{PROGRAM_NAMESPACES, PROGRAM_TABLE};

/// The words of an edit.
const EDITS: [&[u8]; 2] = [b"SUBSCRIBE", b"UNSUBSCRIBE"];

/// What was kept so far.
#[derive(Debug, Default)]
pub struct Kept {
    rows: Vec<u8>,
    namespaces: Vec<u8>,
    /// Frames without LF.
    edits: Vec<Vec<u8>>,
}

impl Kept {
    /// Keeps what a frame adds; false if it adds nothing, and then it is answered.
    pub fn keep(&mut self, frame: Option<&Frame>) -> bool {
        match frame {
            Some(Frame::Row(row)) if self.edits.is_empty() => {
                add(&mut self.rows, row, PROGRAM_TABLE)
            }
            Some(Frame::Entry(entry)) => add(&mut self.namespaces, entry, PROGRAM_NAMESPACES),
            _ => false,
        }
    }

    /// Follows a frame, whose text is without LF, that was answered with lines.
    pub fn follow(&mut self, text: &[u8], frame: Option<&Frame>) {
        if matches!(frame, Some(Frame::Command { line, .. }) if is_edit(line)) {
            self.edits.push(text.to_vec());
        }
    }

    /// The bytes of all rows, packed.
    pub fn rows(&self) -> &[u8] {
        &self.rows
    }

    /// The bytes of all entries.
    pub fn namespaces(&self) -> &[u8] {
        &self.namespaces
    }

    /// The frames of the edits that were accepted, in their order.
    pub fn edits(&self) -> &[Vec<u8>] {
        &self.edits
    }
}

/// Adds bytes where they fit.
fn add(kept: &mut Vec<u8>, added: &[u8], most: usize) -> bool {
    let fits = kept.len() + added.len() <= most;
    if fits {
        kept.extend_from_slice(added);
    }
    fits
}

/// Whether a command that was answered is an edit: its word stands after its tag and one space.
fn is_edit(line: &[u8]) -> bool {
    let word = line.split(|&byte| byte == b' ').nth(1).unwrap_or_default();
    EDITS.iter().any(|edit| word.eq_ignore_ascii_case(edit))
}
