//! Modules do not use each other in a circle, in any crate of the workspace nor in its tests.

use std::collections::{BTreeMap, BTreeSet};
use std::fs;
use std::path::{Path, PathBuf};

/// The texts of the modules of a crate, by their paths. The root is `crate`.
type Texts = BTreeMap<String, String>;

#[test]
fn no_circles() {
    let workspace = Path::new(env!("CARGO_MANIFEST_DIR")).join("..");
    let mut seen = 0;
    let folders = |entry: PathBuf| [entry.join("src"), entry.join("tests/suite")];
    for folder in entries(&workspace).into_iter().flat_map(folders).filter(|one| one.is_dir()) {
        let mut texts = Texts::new();
        add_texts(&folder, "crate", &mut texts);
        assert_eq!(circle(&texts), BTreeSet::new(), "a circle in {}", folder.display());
        seen += texts.len();
    }
    assert!(seen > 100, "only {seen} modules");
}

#[test]
fn circles_are_seen() {
    let uses = [
        ("crate", "mod a;\npub mod b;"),
        ("crate::a", "// crate::Item\nuse crate::b::c::{C, D};"),
        ("crate::b", "mod c;\nmod d;"),
        ("crate::b::c", "use super::d;"),
        ("crate::b::d", "use super::c;"),
    ];
    let mut texts: Texts = uses.map(|(path, text)| (path.to_string(), text.to_string())).into();
    assert_eq!(circle(&texts), ["crate::b::c", "crate::b::d"].into());
    texts.insert("crate::b::d".to_string(), String::new());
    assert_eq!(circle(&texts), BTreeSet::new());
    // An item of the root, which uses the modules that it declares.
    texts.insert("crate::a".to_string(), "fn f() -> crate::Item {}".to_string());
    assert_eq!(circle(&texts), ["crate", "crate::a"].into());
}

/// The modules of circles, and those on a way from one circle to another.
fn circle(texts: &Texts) -> BTreeSet<&str> {
    let uses: Vec<(&str, &str)> = texts.keys().flat_map(|path| uses_of(texts, path)).collect();
    let mut left: BTreeSet<&str> = texts.keys().map(String::as_str).collect();
    loop {
        let is_left = |(from, to): &&(&str, &str)| left.contains(from) && left.contains(to);
        let (using, used): (BTreeSet<_>, BTreeSet<_>) =
            uses.iter().filter(is_left).copied().unzip();
        let next = &using & &used;
        if next == left {
            return left;
        }
        left = next;
    }
}

/// The modules that a module declares or names, from `crate` or `super` on; not those in its strings.
fn uses_of<'t>(texts: &'t Texts, path: &'t str) -> Vec<(&'t str, &'t str)> {
    let above = path.rsplit_once("::").map_or(path, |(above, _)| above);
    let mut uses = Vec::new();
    for line in texts[path].lines().filter(|line| !line.trim_start().starts_with("//")) {
        let line: String = line.split('"').step_by(2).collect();
        let line = line.replace("super::", &format!("{above}::"));
        let line = line.replace("mod ", &format!("{path}::"));
        let named = line.match_indices("crate::").map(|(at, _)| module_of(texts, &line[at..]));
        uses.extend(named.filter(|&module| module != path).map(|module| (path, module)));
    }
    uses
}

/// The module that the path at the front of a text names, or in which it names an item.
fn module_of<'t>(texts: &'t Texts, text: &str) -> &'t str {
    let is_of_paths = |c: char| c.is_alphanumeric() || c == '_' || c == ':';
    let named = format!("{}::", text.split(|c| !is_of_paths(c)).next().unwrap_or_default());
    let modules = texts.keys().filter(|module| named.starts_with(&format!("{module}::")));
    modules.max_by_key(|module| module.len()).expect("the root")
}

/// Adds the files of a folder, which are modules below one. A library and a program have one root.
fn add_texts(folder: &Path, above: &str, texts: &mut Texts) {
    for entry in entries(folder) {
        let path = match entry.file_stem().and_then(|stem| stem.to_str()).expect("a name") {
            "lib" | "main" | "mod" => above.to_string(),
            name => format!("{above}::{name}"),
        };
        if entry.is_dir() {
            add_texts(&entry, &path, texts);
        } else {
            *texts.entry(path).or_default() += &fs::read_to_string(&entry).expect("a text");
        }
    }
}

pub fn entries(folder: &Path) -> Vec<PathBuf> {
    let entries = fs::read_dir(folder).expect("a folder");
    entries.map(|entry| entry.expect("an entry").path()).collect()
}
