//! The second program is there to disagree with the proved one. So it uses nothing of the workspace, `formats` does not use
//! it, and of a tool that is neither a test nor a comparison one module alone does, which says what the second program says.

use std::fs;
use std::path::{Path, PathBuf};

use crate::modules::entries;

/// The crates that depend on nothing of the workspace.
const ALONE: [&str; 3] = ["second", "formats", "luspemaro"];
/// The crates that compare the second program with the proved one, in its answers or its time.
const COMPARING: [&str; 2] = ["compare", "bench"];
/// The crates of which one module says what the second program says, by themselves.
const EXPLAINING: [&str; 2] = ["session", "replay"];
/// That module, a file or a folder.
const MODULE: &str = "second_program";

#[test]
fn who_depends_on_it() {
    let mut depending = Vec::new();
    for folder in crates() {
        let (name, depends_on) = (name_of(&folder), dependencies(&folder));
        assert!(depends_on.is_empty() || !ALONE.contains(&name.as_str()), "{name}: {depends_on:?}");
        if depends_on.iter().any(|one| one == "second") {
            depending.push(name);
        }
    }
    depending.sort();
    let mut expected = [COMPARING, EXPLAINING].concat();
    expected.sort();
    assert_eq!(depending, expected);
}

#[test]
fn which_modules_use_it() {
    let mut seen = 0;
    let may_not = |folder: &PathBuf| {
        let name = name_of(folder);
        name != "second" && !COMPARING.contains(&name.as_str())
    };
    for folder in crates().into_iter().filter(may_not) {
        for file in files(&folder.join("src")) {
            let text = fs::read_to_string(&file).expect("a text");
            let is_module =
                file.components().any(|part| Path::new(&part).file_stem() == Some(MODULE.as_ref()));
            assert!(is_module || !uses_second(&text), "{} uses the second program", file.display());
            seen += 1;
        }
    }
    assert!(seen > 100, "only {seen} files");
}

#[test]
fn uses_are_seen() {
    let uses = [
        "use second::Table;",
        "let rows = second::packed::split_rows(rows);",
        "use session::second_program::table_fault;",
        "serve::second_program::table_fault(rows)",
    ];
    let others =
        ["// second::Table", "use crate::second_program::passes;", "milliseconds::of(1)", ""];
    assert!(uses.into_iter().all(uses_second));
    assert!(!others.into_iter().any(uses_second));
}

/// Whether a path begins with the second program, or with the module of another crate that says what it says.
fn uses_second(text: &str) -> bool {
    let is_of_names = |c: char| c.is_alphanumeric() || c == '_';
    let names = |line: &str, path: &str| {
        line.match_indices(path).any(|(at, _)| !line[..at].ends_with(is_of_names))
    };
    let code = text.lines().filter(|line| !line.trim_start().starts_with("//"));
    let paths = ["second::", "session::second_program", "serve::second_program"];
    code.into_iter().any(|line| paths.iter().any(|path| names(line, path)))
}

/// What a crate depends on, other than for its tests.
fn dependencies(folder: &Path) -> Vec<String> {
    let manifest = fs::read_to_string(folder.join("Cargo.toml")).expect("a manifest");
    let lines = manifest.lines().skip_while(|line| *line != "[dependencies]").skip(1);
    let lines = lines.take_while(|line| !line.starts_with('['));
    let names = lines.filter_map(|line| line.split(['.', ' ']).next());
    names.filter(|name| !name.is_empty()).map(String::from).collect()
}

fn crates() -> Vec<PathBuf> {
    let workspace = Path::new(env!("CARGO_MANIFEST_DIR")).join("..");
    entries(&workspace).into_iter().filter(|entry| entry.join("Cargo.toml").is_file()).collect()
}

fn name_of(folder: &Path) -> String {
    folder.file_name().and_then(|name| name.to_str()).expect("a name").to_string()
}

fn files(folder: &Path) -> Vec<PathBuf> {
    let of_entry = |entry: PathBuf| match entry.is_dir() {
        true => files(&entry),
        false => vec![entry],
    };
    entries(folder).into_iter().flat_map(of_entry).collect()
}
