//! The kinds of stores.

use std::path::{Path, PathBuf};

use formats::name::DELIMITER;

use crate::maildir::Layout;

const CYRUS_DELIMITER: u8 = b'.';

/// The store to be read. A file of which the name is `-` is standard input.
#[derive(Debug, PartialEq, Eq)]
pub enum Store {
    /// Without a layout, the one that the tree shows.
    Maildir {
        folder: PathBuf,
        layout: Option<Layout>,
    },
    Mbox(PathBuf),
    Answer(PathBuf),
    List {
        form: ListForm,
        file: PathBuf,
        delimiter: u8,
        subscribed: Option<PathBuf>,
    },
}

/// A list of names.
#[derive(Clone, Copy, Debug, PartialEq, Eq)]
pub enum ListForm {
    /// The bytes of a name a line.
    Names,
    Doveadm,
    Cyrus,
}

impl ListForm {
    /// What parts the levels of its names where the call does not say.
    pub const fn usual_delimiter(self) -> u8 {
        match self {
            ListForm::Names | ListForm::Doveadm => DELIMITER,
            ListForm::Cyrus => CYRUS_DELIMITER,
        }
    }
}

impl Store {
    /// The files that are read, but for those of a tree.
    pub fn files(&self) -> Vec<&Path> {
        match self {
            Store::Maildir { .. } | Store::Mbox(_) => Vec::new(),
            Store::Answer(file) => vec![file],
            Store::List { file, subscribed, .. } => {
                [Some(file.as_path()), subscribed.as_deref()].into_iter().flatten().collect()
            }
        }
    }

    pub fn tree(&self) -> Option<&Path> {
        match self {
            Store::Maildir { folder, .. } | Store::Mbox(folder) => Some(folder),
            Store::Answer(_) | Store::List { .. } => None,
        }
    }
}
