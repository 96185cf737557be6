//! One of the two tables: its rows, and what could not be taken.

use formats::readers::Readers;
use formats::rows::{split_rows, Flags, Row};
use formats::show::counted;
use formats::text::path_text;
use import::{read_bytes, read_store, read_text, Found, Gathered, Room, Store, Told};

use crate::call::Input;
use crate::kind::Kind;
use crate::second_program::table_fault;
use crate::sent::{read_sent, Taken};

/// A row with its own name.
#[derive(Clone, Debug, PartialEq, Eq)]
pub struct OwnRow {
    pub name: Vec<u8>,
    pub flags: Flags,
    pub readers: Readers,
}

/// A table that was read.
#[derive(Debug)]
pub struct Side {
    pub kind: Kind,
    /// As the call names it.
    pub path: Vec<u8>,
    pub rows: Vec<OwnRow>,
    /// The namespace list; none of a kind that has none.
    pub namespaces: Option<Vec<u8>>,
    /// What is not in the rows, though the input has it, or may have it.
    pub left_out: Vec<String>,
    /// Why the table does not pass check 1, if it does not.
    pub fault: Option<String>,
    /// What else is to be known; nothing is lost by it.
    pub notes: Vec<String>,
}

impl Side {
    /// Whether the rows are all that the input has, and a table.
    pub fn is_whole(&self) -> bool {
        self.left_out.is_empty() && self.fault.is_none()
    }
}

/// Reads a table, or says why it cannot be read, or what kind it is cannot be seen.
pub fn read_side(input: &Input) -> Result<Side, String> {
    let named = |reason: String| format!("{}: {reason}", path_text(&input.path));
    let tree =
        input.kind.or(is_folder(input).then_some(Kind::Maildir)).filter(|kind| kind.is_tree());
    if let Some(kind) = tree {
        return read_tree(kind, input);
    }
    let bytes = read_bytes(&input.path).map_err(|error| error.to_string())?;
    let kind = match input.kind {
        Some(kind) => kind,
        None => Kind::of_bytes(&bytes).map_err(|reason| named(format!("{reason}; {NAME_IT}")))?,
    };
    let side = match (kind, kind.text_form()) {
        (_, Some(form)) => {
            let mut told = Told::default();
            let found = read_text(form, &input.path, &bytes, &mut told);
            found.map(|found| of_found(kind, &found, told)).map_err(|error| error.to_string())
        }
        (Kind::Session | Kind::Frames, _) => {
            read_sent(&bytes, kind).map(|taken| of_taken(kind, taken)).map_err(named)
        }
        _ => Ok(of_packed(bytes)),
    };
    side.map(|side| with_path(input, side))
}

const NAME_IT: &str = "name its kind, as session:PATH, frames:PATH, packed:PATH or answer:PATH";

fn is_folder(input: &Input) -> bool {
    input.kind.is_none() && !input.is_standard_input() && input.path.is_dir()
}

fn with_path(input: &Input, side: Side) -> Side {
    Side { path: input.path.as_os_str().as_encoded_bytes().to_vec(), ..side }
}

/// The errors of the importer name the path.
fn read_tree(kind: Kind, input: &Input) -> Result<Side, String> {
    if input.is_standard_input() || !input.path.is_dir() {
        return Err(format!("{}: {} is a folder", path_text(&input.path), kind.text()));
    }
    let folder = input.path.clone();
    let store = match kind {
        Kind::Mbox => Store::Mbox(folder),
        _ => Store::Maildir { folder, layout: None },
    };
    let mut told = Told::default();
    let contents = read_store(&store, &mut told).map_err(|error| error.to_string())?;
    Ok(with_path(input, of_found(kind, &contents.all_found, told)))
}

/// What a store says of its mailboxes. All readers see them: a store knows of none.
fn of_found(kind: Kind, found: &[Found], mut told: Told) -> Side {
    let rows = Gathered::of(found, &mut told).into_rows(Room::Library, &mut told);
    if rows.is_empty() && told.is_all_taken() {
        told.not_taken("the store", "no mailbox was found in it");
    }
    let own_row =
        |row: import::StoreRow| OwnRow { name: row.name, flags: row.flags, readers: Readers::ALL };
    Side {
        kind,
        path: Vec::new(),
        rows: rows.into_iter().map(own_row).collect(),
        namespaces: None,
        left_out: told.all_left_out().to_vec(),
        fault: None,
        notes: told.all_notes().to_vec(),
    }
}

fn of_taken(kind: Kind, taken: Taken) -> Side {
    let Taken { rows, namespaces, left_out, notes } = taken;
    let side = of_packed(rows);
    let left_out = [left_out, side.left_out].concat();
    Side { kind, namespaces: Some(namespaces), left_out, notes, ..side }
}

fn of_packed(bytes: Vec<u8>) -> Side {
    let (rows, rest) = split_rows(&bytes);
    let own_row =
        |row: &Row| OwnRow { name: row.name.to_vec(), flags: row.flags, readers: row.readers };
    let left_out = (!rest.is_empty())
        .then(|| format!("{} after the last whole row", counted(rest.len(), "byte", "bytes")));
    Side {
        kind: Kind::Packed,
        path: Vec::new(),
        rows: rows.iter().map(own_row).collect(),
        namespaces: None,
        left_out: left_out.into_iter().collect(),
        fault: table_fault(&bytes),
        notes: Vec::new(),
    }
}
