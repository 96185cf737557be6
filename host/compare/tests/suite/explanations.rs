//! Explanations on generated damage: what is refused is explained, and nothing else is.

use child::sender_of;
use compare::kinds;
use formats::session::Session;
use formats::source::Source;
use session::{run_session, Form};

use crate::common::second;
use crate::reached::Reached;

/// Kinds of sessions with something wrong in them.
const DAMAGED: [&str; 11] = [
    "a damaged table",
    "namespace lists",
    "damaged commands",
    "odd literals",
    "limits of stored bytes",
    "limits of tables",
    "bad frames",
    "rows and entries around edits",
    "refusals of edits",
    "every reader",
    "edits of every reader",
];
/// Of each kind.
const SEEDS: u64 = 12;

/// A session's text, as `./run` prints it for a file of frames.
fn text_of(kind: &str, seed: u64) -> String {
    let kind = kinds().find(|one| one.name == kind).expect("a kind");
    let mut bytes = Vec::new();
    sender_of(&kind.session(seed))(&mut bytes).expect("bytes");
    let session = Session::check(Source::of_bytes(&bytes)).expect("a file of frames");
    let mut text = Vec::new();
    run_session(&second(), &session, Form::Text, &mut text).1.expect("a run");
    String::from_utf8(text).expect("text")
}

#[test]
fn refusals_are_explained_and_answers_are_not() {
    let mut reached = Reached::default();
    for kind in DAMAGED {
        for seed in 0..SEEDS {
            let text = text_of(kind, seed);
            assert!(!text.contains("the programs differ"), "{kind}, seed {seed}\n{text}");
            let mut lines = text.lines().filter(|line| !line.starts_with(' ')).peekable();
            while let Some(line) = lines.next() {
                let is_explained = lines.peek().is_some_and(|next| next.starts_with("Explained"));
                let number =
                    line.strip_prefix("Refused    ").and_then(|rest| rest.split(':').next());
                let number = number.map(|number| number.parse().expect("a number"));
                assert_eq!(is_explained, number.is_some(), "{kind}, seed {seed}: {line}\n{text}");
                reached.add_held([("answered", line.starts_with("Answer"))]);
                number.into_iter().for_each(|number: u8| reached.add(number.to_string()));
            }
        }
    }
    reached.check(&["1", "2", "3", "4", "13", "14", "15", "16"].map(|number| (number, 21)));
    reached.check(&[("answered", 101)]);
}
