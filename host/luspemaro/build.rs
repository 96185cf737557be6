//! Finds the proved library's static archive, which `tools/kit archive` makes and `./install` puts into place as
//! `libluspemaro.a`.
//!
//! It is looked for in the folder that LUSPEMARO_ARCHIVE_DIR names, under either name; or else in
//! `target/staticlib` of this repository, from this package on, so that a copy of the repository links its
//! own archive; or else where pkg-config finds `luspemaro`.

use std::env;
use std::path::{Path, PathBuf};
use std::process::Command;

const VARIABLE: &str = "LUSPEMARO_ARCHIVE_DIR";
const FOLDER: &str = "../../target/staticlib";
/// The names of the archive, as the linker takes them: as it is made, and as it is installed.
const MADE: &str = "exports";
const INSTALLED: &str = "luspemaro";

fn main() {
    for variable in [VARIABLE, "PKG_CONFIG", "PKG_CONFIG_PATH", "PKG_CONFIG_LIBDIR"] {
        println!("cargo:rerun-if-env-changed={variable}");
    }
    let package = PathBuf::from(env::var_os("CARGO_MANIFEST_DIR").unwrap_or_default());
    let (folder, name) = match env::var_os(VARIABLE).map(PathBuf::from) {
        Some(folder) if !has(&folder, MADE) && has(&folder, INSTALLED) => (folder, INSTALLED),
        Some(folder) => (folder, MADE),
        None => in_place(package.join(FOLDER)),
    };
    println!("cargo:rerun-if-changed={}", folder.join(file_name(name)).display());
    if !has(&folder, name) {
        // Checking the code needs no archive; linking it then fails for want of it.
        let message =
            "is missing: run `tools/kit archive` in the repository's folder first, or ./install";
        println!("cargo:warning={} {message}", file_name(name));
    }
    println!("cargo:rustc-link-search=native={}", folder.display());
    println!("cargo:rustc-link-lib=static={name}");
}

/// The repository's archive, or where there is none an installed one.
fn in_place(made: PathBuf) -> (PathBuf, &'static str) {
    if has(&made, MADE) {
        return (made, MADE);
    }
    // Looked at again when it is made.
    println!("cargo:rerun-if-changed={}", made.join(file_name(MADE)).display());
    match installed().filter(|folder| has(folder, INSTALLED)) {
        Some(folder) => (folder, INSTALLED),
        None => (made, MADE),
    }
}

/// The folder that pkg-config gives, if it is there and knows the library.
fn installed() -> Option<PathBuf> {
    let program = env::var_os("PKG_CONFIG").unwrap_or("pkg-config".into());
    let asked = Command::new(program).args(["--variable=libdir", INSTALLED]).output().ok()?;
    let folder = String::from_utf8(asked.stdout).ok()?;
    Some(PathBuf::from(folder.trim_end())).filter(|_| asked.status.success())
}

fn has(folder: &Path, name: &str) -> bool {
    folder.join(file_name(name)).exists()
}

fn file_name(name: &str) -> String {
    format!("lib{name}.a")
}
