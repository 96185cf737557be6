//! Where the session file goes: never over what is there, unless that is asked for, and never over anything
//! that is read or into a tree that is read.

use std::fs;
use std::path::{Path, PathBuf};

use formats::text::path_text;
use session::{is_same_file, NewFile};

use crate::kind::Store;

/// The file that is named for the session.
#[derive(Debug, PartialEq, Eq)]
pub struct Output {
    pub path: PathBuf,
    /// Whether it may take the place of a file.
    pub is_forced: bool,
}

impl Output {
    /// Why nothing can be written there, before anything is read.
    pub fn check(&self, store: &Store) -> Result<(), String> {
        let path = path_text(&self.path);
        if store.files().iter().any(|file| is_same_file(input_path(file), &self.path)) {
            return Err(format!("{path} is read here, so no session is written there"));
        }
        if let Some(tree) = store.tree().filter(|tree| self.is_below(tree)) {
            let tree = path_text(tree);
            return Err(format!(
                "{path} lies in {tree}, which is read, so nothing is written there"
            ));
        }
        NewFile::check(&self.path, self.is_forced)
    }

    /// Writes the whole text, or leaves what was there.
    pub fn write(&self, text: &str) -> Result<(), String> {
        NewFile::create(&self.path, self.is_forced)?.write(text)
    }

    /// Whether it is in a tree, or would be: some folder above it is the tree's.
    fn is_below(&self, tree: &Path) -> bool {
        let folder = match self.path.parent() {
            Some(folder) if !folder.as_os_str().is_empty() => folder,
            _ => Path::new("."),
        };
        let real = [fs::canonicalize(folder), fs::canonicalize(&self.path)];
        let is_inside = |path: &PathBuf| path.ancestors().any(|above| is_same_file(above, tree));
        real.iter().flatten().any(is_inside)
    }
}

/// Of a file whose name is `-`, what standard input is.
fn input_path(file: &Path) -> &Path {
    if file.as_os_str() == "-" {
        Path::new("/dev/stdin")
    } else {
        file
    }
}
