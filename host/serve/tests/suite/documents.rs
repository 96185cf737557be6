//! What the documents say of the server is so: its options, and the lines of the example.

use std::collections::BTreeSet;

use crate::common::{text, tunnel};

const README: &str = include_str!("../../../../README.md");
const SERVING: &str = include_str!("../../../../docs/SERVING.md");
const SCRIPT: &str = include_str!("../../../../serve");
const SESSION: &str = concat!(env!("CARGO_MANIFEST_DIR"), "/../../host/sessions/customers.session");

/// Of a line the example has so many bytes, through the first of the sum.
const SHOWN: usize = 74;

/// The options that a text names.
fn options(text: &str) -> BTreeSet<&str> {
    let is_of_option = |character: char| character == '-' || character.is_ascii_lowercase();
    let words = text.split(|character| !is_of_option(character));
    words.filter(|word| word.starts_with("--") && word.len() > 2).collect()
}

/// The help of `./serve`, the usage that the program prints and docs/SERVING.md name the same options.
#[test]
fn options_are_documented() {
    let help = SCRIPT.split_once("help() {").and_then(|(_, rest)| rest.split_once("\n}"));
    let mut help = options(help.expect("a help").0);
    assert!(help.remove("--help") && help.contains("--accept-login"), "{help:?}");
    let usage = text(&tunnel(&[], b"").stderr);
    assert_eq!(options(&usage), help);
    let missing: Vec<_> = help.difference(&options(SERVING)).copied().collect();
    assert_eq!(missing, Vec::<&str>::new());
}

/// The example of the README says what the server says.
#[test]
fn the_example_at_the_start() {
    let told = text(&tunnel(&[SESSION], b"").stderr);
    let lines: Vec<&str> =
        told.lines().filter_map(|line| line.split_once(".session: ")).map(|line| line.1).collect();
    assert_eq!(lines.len(), 2, "{told}");
    for line in lines {
        let (shown, _) = line.split_at(line.len().min(SHOWN));
        let example = format!("    serve: host/sessions/customers.session: {shown}");
        assert!(README.contains(&example), "{example}");
    }
}

/// The first part of the README says what a reader needs before the first command.
#[test]
fn the_first_page() {
    let first = README.split("\n## A session of your own").next().expect("a page");
    let words = first.split_whitespace().collect::<Vec<_>>().join(" ");
    for sentence in [
        "The Rattle kit is ",
        "travel beside the repository and are no part of it; docs/CONFORMANCE.md has each sentence's place",
        "shows the tree and then an error for SELECT",
    ] {
        assert!(words.contains(sentence), "{sentence}");
    }
}
