//! `walk large` in a session, by the walker itself.

use std::path::Path;
use std::process::Command;

use child::testing::example;
use formats::session::Session;
use formats::source::Source;
use session::{make_ready, run_session, Form, Programs};

const WALKER: &str = env!("CARGO_BIN_EXE_walker");
const WIDE: &str = include_str!("../../wide.session");

fn printed(source: &str) -> String {
    let session = Session::check(Source::of_bytes(source.as_bytes())).expect("a session");
    let program = Programs::from(&example("second-of-walker"));
    let programs = Programs { walker: Some(WALKER.into()), ..program };
    let mut output = Vec::new();
    let (summary, result) = run_session(programs, &session, Form::Text, &mut output);
    result.expect("a run");
    assert!(summary.is_all_answered());
    String::from_utf8(output).expect("text")
}

/// The bundled account of 240 names at the top level: 9 by frames, and every name by the library.
#[test]
fn the_wide_account() {
    make_ready(Path::new(WALKER)).expect("a walker");
    let text = printed(WIDE);
    let (before, after) = text.split_once("By         the library, with").expect("a large walk");
    assert!(
        before.contains("Refused    9: answer longer than its buffer (as expected)"),
        "{before}"
    );
    assert!(after.contains("Answer     241 commands sent, 240 mailboxes found\n"), "{after}");
    for at in 0..240 {
        assert!(after.contains(&format!("\"Client {at:03}/Mail\"\n")), "{at}");
    }
}

/// After edits both walks find the same.
#[test]
fn beside_the_walk_of_the_program() {
    let text = printed(concat!(
        "mailbox a/b exists subscribed\nmailbox c exists readers 0\n",
        "subscribe C\nunsubscribe a/b\nsubscribe x/y/z\nwalk\nwalk large\n",
        "reader 3\nwalk remote\nwalk large remote\n",
    ));
    let walks: Vec<&str> = text.split("\nWalk ").skip(1).collect();
    let found = |walk: &str| {
        let (_, answer) = walk.split_once("Answer     ").expect("an answer");
        answer.lines().take(3).map(String::from).collect::<Vec<_>>()
    };
    assert_eq!(walks.len(), 4);
    assert_eq!(
        found(walks[0]),
        ["3 commands sent, 2 mailboxes found", "           C", "           x/y/z"]
    );
    assert_eq!(found(walks[0]), found(walks[1]));
    assert_eq!(found(walks[2]), found(walks[3]));
}

#[test]
fn wrong_calls() {
    let output = Command::new(WALKER).arg("--walk").output().expect("a run");
    assert_eq!((output.status.code(), output.stdout.len()), (Some(1), 0));
    assert_eq!(output.stderr, b"walker: usage: walker [--build] <FRAMES\n");
}
