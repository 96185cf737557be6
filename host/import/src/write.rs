//! The session file. A lawful name has bytes 20 to 7E alone, so as text it is what an item takes.

use formats::sha256::Sum;
use formats::show::counted;
use formats::text::{name_text, quoted_text, shortened};
use formats::utf7::decoded;
use formats::words::words_of_flags;

use crate::found::Found;
use crate::gathered::StoreRow;
use crate::told::Told;

/// What the last line of a file asks for.
#[derive(Clone, Copy, Debug, PartialEq, Eq)]
pub enum Asked {
    Nothing,
    /// A walk of all subscribed names, those on other servers too.
    Walk,
}

/// What a session file was made from, for the comments at its start.
#[derive(Debug)]
pub struct MadeFrom {
    /// Its kind and its path.
    pub text: String,
    /// Each with what it is the sum of.
    pub sums: Vec<(String, Sum)>,
    /// What such a source knows, and what it does not.
    pub knows: &'static str,
    /// What whoever calls adds to it.
    pub added: Vec<Found>,
}

/// No comment has more characters, so that each is a line that a session may have: those have at most 16,384
/// bytes.
const MOST_CHARACTERS: usize = 4_000;

/// A session file with these rows. Its first comments say what it was made from, and when, and all that was
/// left out.
pub fn session_text(
    made_from: &MadeFrom,
    date: &str,
    rows: &[StoreRow],
    told: &Told,
    asked: Asked,
) -> String {
    let left_out = told.all_left_out();
    let mut text = comment(&format!(
        "{} from {}; {} left out",
        rows_text(rows),
        made_from.text,
        left_out.len()
    ));
    text += &comment(&format!("Made by import {}, {date}", env!("CARGO_PKG_VERSION")));
    for (of, sum) in &made_from.sums {
        text += &comment(&format!("SHA-256 of {of}: {sum}"));
    }
    text += &comment(made_from.knows);
    for added in &made_from.added {
        text += &comment(&format!("Added by the call: {}", added_text(added)));
    }
    for line in left_out {
        text += &comment(&format!("Left out: {line}"));
    }
    text += &mailbox_lines(rows);
    if asked == Asked::Walk {
        text += "\nwalk remote\n";
    }
    text
}

fn comment(text: &str) -> String {
    format!("# {}\n", shortened(text, MOST_CHARACTERS))
}

/// The rows as items, with what names in modified UTF-7 say in comments above them.
pub fn mailbox_lines(rows: &[StoreRow]) -> String {
    let mut text = String::new();
    for StoreRow { name, flags } in rows {
        if let Some(says) = decoded(name) {
            text += &format!("# {} = {}\n", name_text(name), quoted_text(&says));
        }
        text += &format!("mailbox {} {}\n", name_text(name), words_of_flags(*flags));
    }
    text
}

fn added_text(added: &Found) -> String {
    let words = words_of_flags(added.said.flags());
    format!("{} {} {words}", added.origin, name_text(&added.name))
}

/// How many rows there are.
pub fn rows_text(rows: &[StoreRow]) -> String {
    counted(rows.len(), "row", "rows")
}
