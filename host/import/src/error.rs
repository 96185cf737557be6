//! Why a store cannot be read.

use std::fmt;
use std::io;
use std::path::{Path, PathBuf};

use formats::text::path_text;

/// Why a store cannot be read at all. Nothing is written then.
#[derive(Debug)]
pub enum StoreError {
    Unreadable(PathBuf, io::Error),
    /// It can be read and is no such store.
    NoStore(PathBuf, &'static str),
}

impl StoreError {
    pub(crate) fn unreadable(path: &Path) -> impl FnOnce(io::Error) -> StoreError + '_ {
        move |error| StoreError::Unreadable(path.to_path_buf(), error)
    }
}

impl fmt::Display for StoreError {
    fn fmt(&self, formatter: &mut fmt::Formatter) -> fmt::Result {
        match self {
            StoreError::Unreadable(path, error) => {
                write!(formatter, "cannot read {}: {error}", path_text(path))
            }
            StoreError::NoStore(path, reason) => {
                write!(formatter, "{}: {reason}", path_text(path))
            }
        }
    }
}
