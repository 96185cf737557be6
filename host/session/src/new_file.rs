//! A file that is written whole or not at all, and never over one that is there, unless that is asked for.
//!
//! A file that is to be replaced is not written into: under another name it may be one that is evidence. So
//! its name is given to a new file at the end.

use std::ffi::OsString;
use std::fs::{self, File};
use std::io::{self, Write};
use std::os::unix::fs::MetadataExt;
use std::path::{Path, PathBuf};

use formats::text::path_text;

/// A file under way. One that is not finished does not stay.
pub struct NewFile {
    path: PathBuf,
    /// What is written to, and its path until it is finished.
    file: File,
    unfinished: Option<PathBuf>,
}

impl NewFile {
    /// Why no file may be made there, if so. Nothing is made.
    pub fn check(path: &Path, is_forced: bool) -> Result<(), String> {
        let Ok(data) = fs::symlink_metadata(path) else {
            return Ok(());
        };
        let path = path_text(path);
        if !is_forced {
            return Err(format!("{path} is there already; --force writes over it"));
        }
        if !data.is_file() {
            return Err(format!("{path} is no plain file, and --force writes over no other"));
        }
        Ok(())
    }

    /// Makes it, empty. With force it may take the place of a file at the end.
    pub fn create(path: &Path, is_forced: bool) -> Result<NewFile, String> {
        NewFile::check(path, is_forced)?;
        let place = if is_forced { beside(path) } else { path.to_path_buf() };
        let file = File::create_new(&place).map_err(|error| failed(path, &error))?;
        Ok(NewFile { path: path.to_path_buf(), file, unfinished: Some(place) })
    }

    /// Writes the whole text and gives the file its name.
    pub fn write(mut self, text: &str) -> Result<(), String> {
        let written = self.file.write_all(text.as_bytes()).and_then(|()| self.file.sync_data());
        let named = written.and_then(|()| match &self.unfinished {
            Some(place) if *place != self.path => fs::rename(place, &self.path),
            _ => Ok(()),
        });
        named.map_err(|error| failed(&self.path, &error))?;
        self.unfinished = None;
        Ok(())
    }
}

impl Drop for NewFile {
    fn drop(&mut self) {
        if let Some(place) = self.unfinished.take() {
            // Where that fails too, the first error is the one to be seen.
            let _ = fs::remove_file(place);
        }
    }
}

/// A name beside it that no other run uses.
fn beside(path: &Path) -> PathBuf {
    let mut name = OsString::from(path);
    name.push(format!(".{}.new", std::process::id()));
    PathBuf::from(name)
}

fn failed(path: &Path, error: &io::Error) -> String {
    format!("cannot write {}: {error}", path_text(path))
}

/// Whether both are there and are one file, by whatever paths.
pub fn is_same_file(one: &Path, other: &Path) -> bool {
    let identity = |path: &Path| fs::metadata(path).ok().map(|data| (data.dev(), data.ino()));
    identity(one).is_some() && identity(one) == identity(other)
}
