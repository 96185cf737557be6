//! The comparison: it passes the second program, and it sees and tells a difference.

use std::path::Path;
use std::process::Command;

use compare::random::Random;
use compare::{compare_session, kinds};

use crate::common::second;

const COMPARE: &str = env!("CARGO_BIN_EXE_compare");
/// A program that answers each frame with the frame.
const ECHO: &str = "/bin/cat";
/// A program that answers nothing.
const SILENT: &str = "/bin/true";
/// Of each kind.
const SEEDS: std::ops::Range<u64> = 0..2;

#[test]
fn the_second_program_passes() {
    for kind in kinds() {
        for seed in SEEDS {
            let compared = compare_session(&second(), kind, seed);
            assert_eq!(compared.map(|_| ()), Ok(()));
        }
    }
}

#[test]
fn other_programs_fail() {
    for program in [ECHO, SILENT, "/bin/false", "no-such-program"] {
        for kind in kinds() {
            let compared = compare_session(Path::new(program), kind, 0);
            assert!(compared.is_err(), "{program}, kind '{}'", kind.name);
        }
    }
}

/// A session is the same each time, so a difference can be looked at again.
#[test]
fn differences_are_told_alike() {
    for kind in kinds() {
        let tell = || compare_session(Path::new(SILENT), kind, 1).expect_err("a difference");
        let text = tell();
        assert_eq!(text, tell());
        assert!(text.starts_with(&format!("kind '{}', seed 1: ", kind.name)));
        for heading in ["The frame\n", "The second program answers\n", "The program answers\n"] {
            assert!(text.contains(heading), "{text}");
        }
    }
}

/// A session hangs on the name of its kind and on the seed, not on what other kinds there are: the
/// first numbers of a stream stay what they are.
#[test]
fn streams_hang_on_name_and_seed() {
    let mut names: Vec<&str> = kinds().map(|kind| kind.name).collect();
    names.sort_unstable();
    names.dedup();
    assert_eq!(names.len(), kinds().count(), "two kinds of one name");
    let numbers = |name, seed| {
        let mut random = Random::of(name, seed);
        [(); 3].map(|()| random.below(1_000))
    };
    assert_eq!(numbers("literals", 0), [699, 68, 310]);
    assert_eq!(numbers("literals", 1), [499, 421, 815]);
    assert_eq!(numbers("odd literals", 0), [650, 839, 782]);
}

#[test]
fn calls_and_last_lines() {
    let second = second();
    let second = second.to_str().expect("text");
    let calls: [(&[&str], i32, &str); 11] = [
        (&[second, "--seeds", "5..6"], 0, "42 passed, 0 failed\n"),
        (&[second, "--kind", "literals", "--seeds", "5..8"], 0, "3 passed, 0 failed\n"),
        (&[ECHO, "--kind", "literals", "--seeds", "5..8"], 1, "0 passed, 3 failed\n"),
        (&[ECHO], 1, "0 passed, 10 failed\n"),
        (&[], 2, ""),
        (&["no-such-program"], 2, ""),
        (&[second, "--seeds", "5"], 2, ""),
        (&[second, "--kind", "no such kind"], 2, ""),
        (
            &[second, "--kind", "more patterns", "--seeds", "0..1", "--least", "25"],
            0,
            "2 passed, 0 failed\n",
        ),
        (
            &[second, "--kind", "literals", "--seeds", "0..1", "--least", "25"],
            0,
            "1 passed, 0 failed\n",
        ),
        (&[second, "--least", "many"], 2, ""),
    ];
    for (arguments, status, last_line) in calls {
        let output = Command::new(COMPARE).args(arguments).output().expect("a run");
        assert_eq!(output.status.code(), Some(status), "{arguments:?}");
        let text = String::from_utf8(output.stdout).expect("text");
        assert!(text.ends_with(last_line), "{arguments:?}: {text}");
        assert_eq!(output.stderr.is_empty(), status != 2, "{arguments:?}");
    }
}
