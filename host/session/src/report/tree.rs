//! The names of the table as a tree, with flags and readers, as given and at the end.

use std::collections::BTreeMap;

use formats::name::{ancestors, levels, DELIMITER};
use formats::readers::Readers;
use formats::rows::{split_rows, Flags, Row};
use formats::sha256::{sum_of_bytes, Sum};
use formats::show::beside;
use formats::text::line_text;
use formats::words::{word_of_readers, words_of_flags};

use crate::kept::Kept;
use crate::report::html::{cell, table, Html};
use crate::second_program::Stored;

/// Deeper names are indented no further, so that flags and readers keep their place.
const MOST_INDENTED: usize = 8;

/// What a row says beside its name.
type Said = (Flags, Readers);

/// The table of a program after a session.
#[derive(Debug, Default)]
pub struct Tables {
    /// The bytes of all rows that were kept, packed.
    given: Vec<u8>,
    /// The rows after the last edit, packed; none where no edit was accepted.
    at_end: Option<Vec<u8>>,
    passes: bool,
}

/// Packed bytes of a table, to be named in a report.
pub struct Packed {
    pub rows: usize,
    pub bytes: usize,
    pub sum: Sum,
}

impl Tables {
    /// The rows that the program kept; whether they pass, and what the edits made of them, as the second program sees it.
    pub fn of(kept: &Kept, stored: &Stored) -> Tables {
        let (given, at_end) = (kept.rows().to_vec(), stored.rows_after_edits());
        Tables { given, at_end, passes: stored.passes() }
    }

    pub fn given(&self) -> Packed {
        packed(&self.given)
    }

    pub fn at_end(&self) -> Option<Packed> {
        self.at_end.as_deref().map(packed)
    }

    /// The bytes of all rows that were kept.
    pub fn packed_given(&self) -> &[u8] {
        &self.given
    }

    /// The rows after the last edit; none where no edit was accepted.
    pub fn packed_at_end(&self) -> Option<&[u8]> {
        self.at_end.as_deref()
    }

    /// Whether the table that was given passes, as the second program sees it.
    pub fn passes(&self) -> bool {
        self.passes
    }

    /// A tree where the table passes; else the rows as they stand.
    pub fn html(&self) -> Html {
        if self.passes {
            self.tree()
        } else {
            self.flat()
        }
    }

    fn tree(&self) -> Html {
        let mut nodes: BTreeMap<Vec<&[u8]>, [Option<Said>; 2]> = BTreeMap::new();
        let at_end = self.at_end.as_ref().unwrap_or(&self.given);
        for (side, bytes) in [&self.given, at_end].into_iter().enumerate() {
            for Row { flags, readers, name } in split_rows(bytes).0 {
                for ancestor in ancestors(name) {
                    nodes.entry(levels(ancestor).collect()).or_default();
                }
                nodes.entry(levels(name).collect()).or_default()[side] = Some((flags, readers));
            }
        }
        let rows = nodes.iter().map(|(levels, said)| self.node(levels, *said));
        match self.at_end {
            Some(_) => table("tree edited", &["Name", "Flags", "Readers", "After the edits"], rows),
            None => table("tree", &["Name", "Flags", "Readers"], rows),
        }
    }

    fn node(&self, levels: &[&[u8]], [given, at_end]: [Option<Said>; 2]) -> Html {
        let name = levels.join(&DELIMITER);
        let indented = levels.len().min(MOST_INDENTED);
        let indent = format!("padding-left:{}em", 0.9 * indented as f32 - 0.5);
        let class = if given.or(at_end).is_some() { "row" } else { "implied" };
        let (above, own) = split_last(&name);
        let shown = Html::joined([
            Html::of_text("span", &[("class", "above")], above),
            Html::of_text("span", &[("class", class)], own),
            Html::text(beside(&name)),
        ]);
        let mut cells = vec![Html::element("td", &[("style", &indent)], shown)];
        cells.extend(said_cells(given));
        if self.at_end.is_some() {
            cells.push(cell(change_text(given, at_end)));
        }
        let name = line_text(&name);
        Html::element("tr", &[("data-name", &name), ("class", class)], Html::joined(cells))
    }

    fn flat(&self) -> Html {
        let (rows, rest) = split_rows(&self.given);
        let html_row = |row: &Row| {
            let name = line_text(row.name);
            let shown = Html::text(name.clone() + &beside(row.name));
            let mut cells = vec![Html::element("td", &[], shown)];
            cells.extend(said_cells(Some((row.flags, row.readers))));
            Html::element("tr", &[("data-name", &name), ("class", "row")], Html::joined(cells))
        };
        let rest = match rest.len() {
            0 => Html::default(),
            count => Html::of_text("p", &[], format!("After them {count} bytes are no row.")),
        };
        let told = "The table does not pass, so its rows stand here as they were given.";
        let rows = table("tree", &["Name", "Flags", "Readers"], rows.iter().map(html_row));
        Html::joined([Html::of_text("p", &[("class", "wrong")], told), rows, rest])
    }
}

fn packed(bytes: &[u8]) -> Packed {
    Packed { rows: split_rows(bytes).0.len(), bytes: bytes.len(), sum: sum_of_bytes(bytes) }
}

/// The text of a name before its last level, and of that level.
fn split_last(name: &[u8]) -> (String, String) {
    let at = name.iter().rposition(|&byte| byte == DELIMITER).map_or(0, |at| at + 1);
    (line_text(&name[..at]), line_text(&name[at..]))
}

fn said_cells(said: Option<Said>) -> [Html; 2] {
    match said {
        Some((flags, readers)) => [cell(words_of_flags(flags)), cell(word_of_readers(readers))],
        None => [cell("no row"), cell("")],
    }
}

fn change_text(given: Option<Said>, at_end: Option<Said>) -> String {
    match (given, at_end) {
        (given, at_end) if given == at_end => String::new(),
        (_, None) => "its row is gone".to_string(),
        (None, Some((flags, readers))) => {
            format!("a new row: {}, readers {}", words_of_flags(flags), word_of_readers(readers))
        }
        (Some(_), Some((flags, _))) => words_of_flags(flags),
    }
}
