//! What is told of a store beside its rows.

use formats::show::beside;
use formats::text::name_text;

/// What was left out, and what else is to be known. Each is a line of text.
#[derive(Debug, Default)]
pub struct Told {
    left_out: Vec<String>,
    notes: Vec<String>,
}

impl Told {
    /// A mailbox, or something said of it, that the table does not have.
    pub fn left_out(&mut self, origin: &str, name: &[u8], reason: &str) {
        self.left_out.push(format!("{origin}: {}: {reason}", shown_name(name)));
    }

    /// Something without a name that was not taken.
    pub fn not_taken(&mut self, origin: &str, reason: &str) {
        self.left_out.push(format!("{origin}: {reason}"));
    }

    /// Something of which nothing is lost.
    pub fn note(&mut self, origin: &str, text: &str) {
        self.notes.push(format!("{origin}: {text}"));
    }

    /// A name of which nothing is lost.
    pub fn note_name(&mut self, origin: &str, name: &[u8], text: &str) {
        self.note(origin, &format!("{}: {text}", shown_name(name)));
    }

    /// Whether the table has all that the store says.
    pub fn is_all_taken(&self) -> bool {
        self.left_out.is_empty()
    }

    pub fn all_left_out(&self) -> &[String] {
        &self.left_out
    }

    pub fn all_notes(&self) -> &[String] {
        &self.notes
    }
}

/// A name, every byte of it seen, and what it says in modified UTF-7.
fn shown_name(name: &[u8]) -> String {
    name_text(name) + &beside(name)
}
