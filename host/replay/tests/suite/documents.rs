//! What the documents say of the replay is so: its options, and the example of the README.

use std::collections::BTreeSet;

use crate::common::*;

const SCRIPT: &str = include_str!("../../../../replay");
const VERIFY: &str = include_str!("../../../../verify");
const DOCUMENT: &str = include_str!("../../../../docs/REPLAY.md");
const README: &str = include_str!("../../../../README.md");

/// Words of the program that its script gives it, and no person.
const OF_THE_SCRIPT: [&str; 4] = ["--archive-sum", "--built-by-proof", "--sources-sum", "--commit"];

/// The options that a text names.
fn options(text: &str) -> BTreeSet<&str> {
    let is_of_option = |character: char| character == '-' || character.is_ascii_lowercase();
    let words = text.split(|character| !is_of_option(character));
    words.filter(|word| word.starts_with("--") && word.len() > 2).collect()
}

fn help_of(script: &str) -> &str {
    script.split_once("help() {").and_then(|(_, rest)| rest.split_once("\n}")).expect("a help").0
}

#[test]
fn options_are_documented() {
    let mut help = options(help_of(SCRIPT));
    assert!(help.remove("--help"));
    // What is said of the server.
    help.remove("--record");
    let usage = text(&run(&[]).stderr);
    let of_program: BTreeSet<&str> =
        options(&usage).into_iter().filter(|option| !OF_THE_SCRIPT.contains(option)).collect();
    assert_eq!(of_program, help);
    let documented = options(DOCUMENT);
    for script in [SCRIPT, VERIFY] {
        let missing: Vec<_> = options(help_of(script))
            .difference(&documented)
            .copied()
            .filter(|option| *option != "--help")
            .collect();
        assert_eq!(missing, Vec::<&str>::new());
    }
}

/// The example of the README changes an answer of the bundled night, and shows what is printed then.
#[test]
fn the_example_of_the_readme() {
    let section = README.split("\n## For the other side's expert\n").nth(1).expect("a section");
    let section = section.split("\n## ").next().expect("a section");
    assert!(section.lines().count() < 40, "{} lines", section.lines().count());
    let changed = read(BUNDLED.as_ref()).replacen("5207\n", "5206\n", 1);
    let log = file("changed.frames", changed);
    let (status, first, all) = came(&run(&[word(&log)]));
    assert_eq!(status, Some(1), "{all}");
    assert!(section.contains(&format!("    {first}\n")), "{first}");
    for line in all
        .lines()
        .filter(|line| ["Differs", "Recorded", "Now "].iter().any(|label| line.starts_with(label)))
    {
        assert!(section.contains(&format!("    {line}\n")), "{line}");
    }
}
