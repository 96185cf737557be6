//! Files of tables, and calls of the comparison.

use std::fs;
use std::path::Path;
use std::process::{Command, Output, Stdio};

use formats::frames::Frame;
use formats::readers::Readers;
use formats::rows::{Flags, Row};

pub const TABLES: &str = env!("CARGO_BIN_EXE_tables");

/// A file of a test's own.
pub fn file(name: &str, bytes: impl AsRef<[u8]>) -> String {
    let path = Path::new(env!("CARGO_TARGET_TMPDIR")).join(name);
    fs::write(&path, bytes).expect("a file");
    path.to_str().expect("text").to_string()
}

/// An empty folder of a test's own.
pub fn folder(name: &str) -> String {
    let root = Path::new(env!("CARGO_TARGET_TMPDIR")).join(name);
    if root.exists() {
        fs::remove_dir_all(&root).expect("a folder that is gone");
    }
    fs::create_dir_all(&root).expect("a folder");
    root.to_str().expect("text").to_string()
}

/// A Maildir++ tree with these folders, and these subscriptions.
pub fn maildir(name: &str, folders: &[&str], subscriptions: &str) -> String {
    let root = folder(name);
    for folder in folders {
        for part in ["cur", "new", "tmp"] {
            fs::create_dir_all(Path::new(&root).join(folder).join(part)).expect("a folder");
        }
    }
    fs::write(Path::new(&root).join("subscriptions"), subscriptions).expect("a file");
    root
}

/// Rows, packed, by names and flags; all readers see them.
pub fn packed(rows: &[(&str, u16)]) -> Vec<u8> {
    let bytes = |(name, flags): &(&str, u16)| {
        let flags = Flags::from_bits(*flags);
        Row { flags, readers: Readers::ALL, name: name.as_bytes() }.to_bytes().expect("a row")
    };
    rows.iter().flat_map(bytes).collect()
}

/// A file of frames, a row each.
pub fn frames(rows: &[(&str, u16)]) -> Vec<u8> {
    let frame = |row: &(&str, u16)| Frame::Row(packed(&[*row])).encode();
    rows.iter().flat_map(|row| [frame(row), b"\n".to_vec()].concat()).collect()
}

/// The status, what was printed, and what was told.
pub fn run(words: &[&str]) -> (i32, String, String) {
    let output = Command::new(TABLES).args(words).stdin(Stdio::null()).output().expect("a run");
    parts(output)
}

pub fn parts(output: Output) -> (i32, String, String) {
    let text = |bytes| String::from_utf8(bytes).expect("text");
    (output.status.code().expect("a status"), text(output.stdout), text(output.stderr))
}

/// The lines between the two tables and the summary.
pub fn body(text: &str) -> String {
    let parts: Vec<&str> = text.split("\n\n").collect();
    parts[1..parts.len() - 1].join("\n\n")
}
