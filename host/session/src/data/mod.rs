//! A session as data for other tools: what was sent, what was answered, found and refused, and the table,
//! as one JSON document or as CSV. Each item is written as it comes, so a long session needs no memory.

mod as_csv;
mod as_json;
mod parts;

pub use as_json::{name_members, row_members};
pub use parts::{End, Remark};

use crate::form::Form;
use crate::report::{Came, Tables};

/// What is written so far.
#[derive(Debug)]
pub struct Data {
    form: Form,
    has_items: bool,
}

/// Each function gives what is to be written, which is nothing in the forms that are no data.
impl Data {
    pub fn new(form: Form) -> Data {
        Data { form, has_items: false }
    }

    pub fn remark(&mut self, remark: Remark) -> String {
        match self.form {
            Form::Json => self.before_item() + &as_json::remark(remark).to_string(),
            Form::Csv => self.before_item() + &as_csv::remark(remark),
            Form::Text | Form::Frames => String::new(),
        }
    }

    /// What was sent, or walked by the library, and what came of it.
    pub fn came(&mut self, came: &Came) -> String {
        match self.form {
            Form::Json => self.before_item() + &as_json::came(came).to_string(),
            Form::Csv => self.before_item() + &as_csv::came(came),
            Form::Text | Form::Frames => String::new(),
        }
    }

    /// The table and the counts. Nothing comes after it.
    pub fn end(&mut self, end: End) -> String {
        let before = if self.has_items { String::new() } else { self.before_item() };
        let tables = Tables::of(end.kept, end.stored);
        match self.form {
            Form::Json => before + &as_json::end(end, &tables),
            Form::Csv => before + &as_csv::end(end, &tables),
            Form::Text | Form::Frames => String::new(),
        }
    }

    fn before_item(&mut self) -> String {
        let is_first = !std::mem::replace(&mut self.has_items, true);
        match (self.form, is_first) {
            (Form::Json, true) => as_json::START.to_string(),
            (Form::Json, false) => ",\n".to_string(),
            (Form::Csv, true) => as_csv::start(),
            _ => String::new(),
        }
    }
}
