//! The refusals, against the numbers and the words of the header.

use std::collections::BTreeSet;

use luspemaro::{
    collect_from, collect_packed_from, Record, Records, Refusal, Summary, WalkRefusal,
};

const HEADER: &str = include_str!("../../../include/luspemaro.h");
/// A stop of a replay, and no refusal of a call.
const BAD_FRAME: u8 = 13;

/// A line of the header: `#define LUSPEMARO_REFUSAL_NAME number /* meaning */`.
fn parse(line: &str) -> Option<(u8, &str)> {
    let (_, rest) = line.strip_prefix("#define LUSPEMARO_REFUSAL_")?.split_once(' ')?;
    let (number, meaning) = rest.strip_suffix(" */")?.split_once("/* ")?;
    Some((number.trim_end().parse().ok()?, meaning))
}

#[test]
fn refusals_are_those_of_the_header() {
    let in_header: Vec<(u8, &str)> =
        HEADER.lines().filter_map(parse).filter(|&(number, _)| number != BAD_FRAME).collect();
    assert_eq!(in_header, Refusal::ALL.map(|refusal| (refusal.number(), refusal.meaning())));
}

#[test]
fn no_other_number_is_one() {
    for number in 0..=u8::MAX {
        let is_one = matches!(number, 1..=12 | 14..=16);
        let refusal = Refusal::from_number(number);
        assert_eq!(refusal.map(Refusal::number), is_one.then_some(number));
    }
}

/// Six of them are a walk's, by number and meaning, and the header names these.
#[test]
fn walk_refusals() {
    let of_walks = |number: u8| matches!(number, 1 | 6 | 9 | 10 | 11 | 16);
    for number in 0..=u8::MAX {
        let refusal = WalkRefusal::from_number(number);
        assert_eq!(refusal.map(WalkRefusal::number), of_walks(number).then_some(number));
        assert_eq!(refusal.map(Refusal::from), refusal.and(Refusal::from_number(number)));
    }
    for refusal in WalkRefusal::ALL {
        assert_eq!(refusal.to_string(), Refusal::from(refusal).to_string());
    }
    let text: Vec<&str> = HEADER.split_whitespace().filter(|word| *word != "*").collect();
    let numbers = "16 (READER), 1 (TABLE), 6 (OPTION), then in the walk's own order 9 (SHORT_BUFFER, of scratch), \
                   10 (FOUND_FULL) and 11 (PENDING_FULL); no other number";
    assert!(text.join(" ").contains(numbers));
}

/// Each of the six from a call in either form, and no other from any option byte, reader or buffers.
#[test]
fn every_walk_refusal_from_a_call() {
    let records = [Record { flags: 3, start: 0, len: 3, readers: 0xFF }];
    let (packed, summary) = (b"\0\x03\xFF\x03a/b", &[Summary::default()]);
    let mut given = BTreeSet::new();
    for reader in [0, 7, 8, 255] {
        for option in 0..=u8::MAX {
            for (count, table) in [(1, &packed[..]), (2, &packed[1..])] {
                for [scratch, found, pending] in
                    [[0, 9, 9], [99, 0, 9], [99, 3, 1], [99, 9, 0], [99, 4, 2]]
                {
                    let lent = || [scratch, found, pending].map(|room| vec![1; room]);
                    let ([mut one, mut two, mut three], rows) =
                        (lent(), Records { records: &records, count, area: b"a/b", summary });
                    let walked = collect_from(reader, rows, option, &mut one, &mut two, &mut three);
                    let [mut one, mut two, mut three] = lent();
                    let again =
                        collect_packed_from(reader, table, option, &mut one, &mut two, &mut three);
                    assert_eq!(walked, again);
                    given.extend(walked.err());
                }
            }
        }
    }
    assert_eq!(given, BTreeSet::from(WalkRefusal::ALL));
}
