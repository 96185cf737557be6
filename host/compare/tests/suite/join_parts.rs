//! Parts of joined commands: they meet every refusal and every kind of string, by the second program's writer;
//! and what it writes is merged as W11 says.

use compare::join_parts::{damaged_list, met, needed, Parts};
use compare::joins;
use compare::random::Random;
use compare::reached::Reached;
use compare::requests::Options;
use compare::trials::{unreached, Law};
use second::shape::MAX_LINE;
use second::{join, join_packed};

use crate::laws::check_law;

const SEEDS: u64 = 4_000;

/// The line in a buffer of this length, or the number.
fn joined(parts: &Parts, list: &[u8], room: usize) -> Result<Vec<u8>, u8> {
    let Parts { tag, options, reference, .. } = parts;
    let mut out = vec![0; room];
    let length = join_packed(tag, *options, reference, list, &mut out);
    length.map(|length| out[..length].to_vec()).map_err(|refusal| refusal.number())
}

#[test]
fn every_refusal_is_met() {
    let names = [b"Foo/Bar".to_vec(), b"INBOX".to_vec()];
    let mut reached = Reached::default();
    for seed in 0..SEEDS {
        let mut random = Random::of("parts of joined commands", seed);
        let mut parts = Parts::lawful(&mut random, &names);
        let list = parts.list().expect("short patterns");
        let line = joined(&parts, &list, MAX_LINE).expect("lawful parts");
        reached.add_all(&met(&Ok(line.clone())));
        reached.add_all(&met(&joined(&parts, &list, line.len() - 1)));
        let list = damaged_list(&mut random, list);
        reached.add_all(&met(&joined(&parts, &list, MAX_LINE)));
        parts.damage(&mut random);
        if let Some(list) = parts.list() {
            reached.add_all(&met(&joined(&parts, &list, MAX_LINE)));
        }
    }
    assert_eq!(unreached(needed, &reached), [""; 0]);
    reached.check(&[
        ("written", 5_000),
        ("a literal is written", 1_500),
        ("a backslash is written", 800),
        ("a line of 2,048 bytes", 50),
        ("refused with 3", 500),
        ("refused with 4", 3_000),
        ("refused with 6", 100),
        ("refused with 7", 50),
        ("refused with 8", 200),
        ("refused with 9", 4_000),
    ]);
}

/// The number of each set is the one that it is made from.
#[test]
fn numbers_of_options() {
    let numbers: Vec<u8> = Options::all().into_iter().map(Options::number).collect();
    let lawful = |number: &u8| number & 4 == 0 || number & 9 != 0;
    assert_eq!(numbers, (0..=127).filter(lawful).collect::<Vec<u8>>());
}

#[test]
fn written_joins_are_merged() {
    let trial = |random: &mut Random| {
        joins::trial_with(random, |request, random| {
            joins::joined_line(request, random, |tag, request, out| {
                let patterns: Vec<&[u8]> = request.patterns.iter().map(Vec::as_slice).collect();
                let options = request.options.number();
                join(tag, options, &request.reference, &patterns, out)
                    .map_err(|refusal| refusal.number())
            })
        })
    };
    let least = [("both list a name", 1_500), ("a join is refused with 8", 1_000)];
    check_law(Law { trial, needed: joins::LAW.needed }, &least);
}

/// A writer that refuses, or that leaves a pattern out, does not pass.
#[test]
#[should_panic(expected = "is refused with 3")]
fn a_writer_that_refuses_does_not_pass() {
    let trial = |random: &mut Random| {
        joins::trial_with(random, |request, random| {
            joins::joined_line(request, random, |_, _, _| Err(4))
        })
    };
    check_law(Law { trial, needed: joins::LAW.needed }, &[]);
}

#[test]
#[should_panic(expected = "the joined lines are not those of the two merged")]
fn a_writer_that_leaves_a_pattern_out_does_not_pass() {
    let trial = |random: &mut Random| {
        joins::trial_with(random, |request, random| {
            let fewer = request.patterns[1..].to_vec();
            let patterns = if fewer.len() < 8 { fewer } else { request.patterns.clone() };
            request.with(patterns).line(random)
        })
    };
    check_law(Law { trial, needed: joins::LAW.needed }, &[]);
}
