//! The rows and entries of a file: of a session file or a file of frames, as `./run` reads them, or of
//! a packed table.

use std::error::Error;
use std::fmt;
use std::fs::File;
use std::io::{self, Read};
use std::path::Path;

use formats::error::SessionError;
use formats::frames::Frame;
use formats::item::Content;
use formats::session::Session;
use formats::source::Source;

use crate::rooms::MAX_TABLE;

/// The name of a packed table ends so.
const PACKED_EXTENSION: &str = "bin";

/// What a file holds of a table, not judged.
#[derive(Debug, Default)]
pub struct Loaded {
    /// The rows in their packed form.
    pub rows: Vec<u8>,
    /// The namespace list.
    pub entries: Vec<u8>,
    /// Commands, edits, walks and bad frames, which are no part of a table.
    pub left_out: u64,
}

/// Why a file cannot be read.
#[derive(Debug)]
pub enum LoadError {
    /// It cannot be opened or read.
    Unreadable(io::Error),
    /// It is no session file.
    Session(SessionError),
    /// It has more bytes than any table.
    TooLong,
}

/// Reads a file. One whose name ends in `.bin` is a packed table.
pub fn load(path: &Path) -> Result<Loaded, LoadError> {
    if path.extension().is_some_and(|extension| extension == PACKED_EXTENSION) {
        return load_packed(path);
    }
    let source = Source::of_path(path).map_err(LoadError::Unreadable)?;
    load_session(&Session::check(source).map_err(LoadError::Session)?)
}

fn load_packed(path: &Path) -> Result<Loaded, LoadError> {
    let mut rows = Vec::new();
    let file = File::open(path).map_err(LoadError::Unreadable)?;
    file.take(MAX_TABLE as u64 + 1).read_to_end(&mut rows).map_err(LoadError::Unreadable)?;
    if rows.len() > MAX_TABLE {
        return Err(LoadError::TooLong);
    }
    Ok(Loaded { rows, ..Loaded::default() })
}

/// Rows stand in the order in which the session sends them.
fn load_session(session: &Session) -> Result<Loaded, LoadError> {
    let mut loaded = Loaded::default();
    for item in session.items().map_err(LoadError::Session)? {
        let Content::Sent(sent) = item.map_err(LoadError::Session)?.content else {
            continue;
        };
        match Frame::decode(&sent.frame.text) {
            Ok(Frame::Row(row)) if !sent.frame.is_cut => loaded.rows.extend(row),
            Ok(Frame::Entry(entry)) if !sent.frame.is_cut => loaded.entries.extend(entry),
            _ => loaded.left_out += 1,
        }
        if loaded.rows.len() > MAX_TABLE || loaded.entries.len() > MAX_TABLE {
            return Err(LoadError::TooLong);
        }
    }
    Ok(loaded)
}

impl fmt::Display for LoadError {
    fn fmt(&self, formatter: &mut fmt::Formatter) -> fmt::Result {
        match self {
            LoadError::Unreadable(error) => write!(formatter, "cannot be read: {error}"),
            LoadError::Session(error) => write!(formatter, "{error}"),
            LoadError::TooLong => write!(formatter, "over {MAX_TABLE} bytes of rows or entries"),
        }
    }
}

impl Error for LoadError {}
