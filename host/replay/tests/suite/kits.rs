//! What `./verify` says, from what is handed over as proved: nothing is called verified where anything is not.

use std::path::{Path, PathBuf};
use std::process::Output;

use crate::common::*;

/// What is handed over, with these lines in place of others.
pub fn proof(state: &str, more: &str) -> String {
    let sum = "a".repeat(64);
    format!("kit\tk 1\nrust\tcargo 9\ncommit\tcommit c\ncrate\tone\t{sum}\tproved\ncrate\ttwo\t{sum}\t{state}\nsum\tlibrary\tthe library\t{sum}\n{more}end\n")
}

fn verify(proof: &str, words: &[&str]) -> (Output, PathBuf) {
    let page = path("verify.html");
    let words = [&["--kit", "--page", word(&page)], words].concat();
    (run_with(&words, proof.as_bytes()), page)
}

/// Each night and what is to be said of it.
fn nights() -> (PathBuf, PathBuf, PathBuf) {
    let record = recorded(SESSION, COMMANDS);
    let (heading, mut frames) = split_record(&read(&record));
    frames[1] = "5201".to_string();
    let differs = file("differs.frames", format!("{heading}{}\n", frames.join("\n")));
    frames[2] = "57".to_string();
    let refused = file("refused.frames", format!("{heading}{}\n", frames.join("\n")));
    (record, differs, refused)
}

#[test]
fn statuses() {
    let (agrees, differs, refused) = nights();
    let [agrees, differs, refused] = [&agrees, &differs, &refused].map(|path| word(path));
    let cases: [(&[&str], i32); 9] = [
        (&[agrees], 0),
        (&[agrees, agrees], 0),
        (&[differs], 1),
        (&[refused], 3),
        (&[agrees, differs], 1),
        (&[differs, refused, agrees], 3),
        (&["there-is-none", refused], 2),
        (&["--table", CUSTOMERS, agrees], 3),
        (&[agrees, "/dev/null"], 1),
    ];
    for (words, status) in cases {
        let (output, page) = verify(&proof("unchanged", ""), words);
        let (told, page) = (text(&output.stdout), read(&page));
        assert_eq!(output.status.code(), Some(status), "{words:?} {told}");
        assert_eq!(told.contains("\nVerified: "), status == 0, "{told}");
        assert_eq!(told.contains("\nNot verified.\n"), status != 0, "{told}");
        assert_eq!(page.contains("Verified: everything is proved"), status == 0, "{page}");
        assert_eq!(page.contains("class=\"wrong\" id=\"verdict\""), status != 0, "{page}");
        let (verified, all) =
            (page.matches(">verified: agree<").count(), page.matches("data-night=").count());
        assert_eq!(all, words.iter().filter(|word| !["--table", CUSTOMERS].contains(word)).count());
        assert_eq!(
            verified,
            words.iter().filter(|&&word| word == agrees && !words.contains(&"--table")).count()
        );
    }
}

/// Whatever is not proved, no night is called verified, and none is replayed.
#[test]
fn what_is_not_proved() {
    let (agrees, ..) = nights();
    for (proof, reason) in [
        (proof("not-proved", ""), "not proved: two"),
        (
            proof("proved", "trouble\tthe check ends with status 1\n"),
            "the check ends with status 1",
        ),
        (proof("proved", "sum\tprogram\tthe program\t\n"), "the program has no sum"),
        (proof("proved", "").replace("kit\tk 1\n", ""), "the kit has no identity"),
        ("kit\tk\nend\n".to_string(), "no crate was looked at"),
    ] {
        let (output, page) = verify(&proof, &[word(&agrees)]);
        let (told, page) = (text(&output.stdout), read(&page));
        assert_eq!(output.status.code(), Some(4), "{told}");
        assert!(told.contains(reason) && page.contains(reason), "{told}");
        assert!(told.contains("\nNot verified.\n") && !told.contains("verified: "), "{told}");
        assert!(!page.contains("verified: ") && page.contains("nothing is replayed"), "{page}");
    }
    for cut in ["", "kit\tk 1\n", "crate\tone\n"] {
        let (output, page) = verify(cut, &[word(&agrees)]);
        assert_eq!((output.status.code(), page.exists()), (Some(4), false));
        assert!(text(&output.stderr).contains("what is proved"), "{}", text(&output.stderr));
    }
}

/// Names and sums of all that counts, and what is trusted.
#[test]
fn the_page_of_the_kit() {
    let (agrees, differs, _) = nights();
    let (_, page) = verify(&proof("unchanged", ""), &[word(&differs), word(&agrees)]);
    let page = read(&page);
    let mut ids: Vec<&str> =
        page.split(" id=\"").skip(1).filter_map(|rest| rest.split('"').next()).collect();
    let count = ids.len();
    ids.sort_unstable();
    ids.dedup();
    assert_eq!((ids.len(), count > 10), (count, true), "{ids:?}");
    for part in [
        "k 1",
        "commit c",
        "cargo 9",
        "data-crate=\"one\"",
        "proved in this run",
        "proved before on this machine, unchanged since",
        "the prover and its axioms",
        "the tools in plain Rust",
        "SHA-256 of the log",
        "differs 1",
        "data-part=\"Missing\"",
    ] {
        assert!(page.contains(part), "{part}");
    }
    assert!(page.contains(&session::sum_of_file(&differs).expect("a file").to_string()));
}

#[test]
fn wrong_calls_and_pages() {
    let (agrees, ..) = nights();
    let there = file("verify.html", "what is there");
    let cases: [(&[&str], i32); 6] = [
        (&["--kit"], 2),
        (&["--kit", "--page", "x"], 2),
        (&["--kit", "--page", "x", "--table", "y"], 2),
        (&["--kit", word(&agrees)], 2),
        (&["--kit", "--page", word(&agrees), word(&agrees)], 2),
        (&["--kit", "--page", word(&there), word(&agrees)], 4),
    ];
    for (words, status) in cases {
        let output = run_with(words, proof("proved", "").as_bytes());
        assert_eq!(output.status.code(), Some(status), "{words:?} {}", text(&output.stderr));
        assert!(output.stdout.is_empty() && !Path::new("x").exists());
    }
    assert_eq!(read(&there), "what is there");
}
