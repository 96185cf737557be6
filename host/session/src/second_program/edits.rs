//! A table that rows and edits make, the edits by the second program.

use second::command::{read_command, Request};
use second::frames::{Answer, Program};

use crate::second_program::stored::rows_after_edits;

/// Rows, entries, and the edits after them. Rows are taken however many bytes they have.
#[derive(Default)]
pub struct EditedTable {
    program: Program,
}

impl EditedTable {
    pub fn add_row(&mut self, row: &[u8]) {
        self.program.table.extend_from_slice(row);
    }

    pub fn add_entry(&mut self, entry: &[u8]) {
        self.program.namespaces.extend_from_slice(entry);
    }

    /// Whether an edit was made, after which no row is taken.
    pub fn is_edited(&self) -> bool {
        self.program.store.is_some()
    }

    /// The bytes of the rows that were added.
    pub fn added(&self) -> usize {
        self.program.table.len()
    }

    /// The number with which a frame, without its LF, would be refused.
    pub fn refusal_of(&self, frame: &[u8]) -> Option<u8> {
        self.program.fault(frame).map(|fault| fault.refusal().number())
    }

    /// Makes the edit of a frame, or gives the number with which it is refused.
    pub fn edit(&mut self, frame: &[u8]) -> Result<(), u8> {
        match self.program.answer(frame) {
            Some(Answer::Refused(refusal)) => Err(refusal.number()),
            _ => Ok(()),
        }
    }

    /// The rows in their packed form, after the edits, and the namespace list.
    pub fn into_parts(self) -> (Vec<u8>, Vec<u8>) {
        let edited = rows_after_edits(&self.program);
        (edited.unwrap_or(self.program.table), self.program.namespaces)
    }

    /// Whether a command can be read and is an edit.
    pub fn is_edit(line: &[u8]) -> bool {
        read_command(line).is_ok_and(|command| matches!(command.request, Request::Edit(_)))
    }
}
