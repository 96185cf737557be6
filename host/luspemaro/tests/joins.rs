//! The line of a joined command: its options by the names of the header, its refusals in their order, and the
//! answer to it.

mod common;

use common::Lent;
use luspemaro::{
    join, join_packed, Event, Feeder, ListOptions, Record, Refusal, COMMAND_ROOM, READERS_ALL,
};

const HEADER: &str = include_str!("../../../include/luspemaro.h");
const FILL: u8 = b'.';

/// The set of an option by the header's name, and its word in a line.
const OPTIONS: [(&str, ListOptions, &str); 7] = [
    ("SELECT_SUBSCRIBED", ListOptions::SELECT_SUBSCRIBED, "SUBSCRIBED"),
    ("SELECT_REMOTE", ListOptions::SELECT_REMOTE, "REMOTE"),
    ("SELECT_RECURSIVEMATCH", ListOptions::SELECT_RECURSIVEMATCH, "RECURSIVEMATCH"),
    ("SELECT_SPECIAL_USE", ListOptions::SELECT_SPECIAL_USE, "SPECIAL-USE"),
    ("RETURN_SUBSCRIBED", ListOptions::RETURN_SUBSCRIBED, "SUBSCRIBED"),
    ("RETURN_CHILDREN", ListOptions::RETURN_CHILDREN, "CHILDREN"),
    ("RETURN_SPECIAL_USE", ListOptions::RETURN_SPECIAL_USE, "SPECIAL-USE"),
];

/// The line, or the refusal; bytes after the line, and all bytes with a refusal, are as they were.
fn joined(
    tag: &[u8],
    options: ListOptions,
    reference: &[u8],
    patterns: &[&[u8]],
    room: usize,
) -> Result<Vec<u8>, Refusal> {
    let mut out = vec![FILL; room];
    let result = join(tag, options, reference, patterns, &mut out);
    let length = *result.as_ref().unwrap_or(&0);
    assert!(out[length..].iter().all(|&byte| byte == FILL), "bytes that are not the line's");
    result.map(|length| out[..length].to_vec())
}

/// A line of the header: `#define LUSPEMARO_NAME number`, of these names alone.
fn parse(line: &str) -> Option<(&str, u8)> {
    let (name, number) = line.strip_prefix("#define LUSPEMARO_")?.split_once(' ')?;
    let is_option = name.starts_with("SELECT_") || name.starts_with("RETURN_");
    let number = u8::from_str_radix(number.strip_prefix("0x")?, 16).ok()?;
    is_option.then_some((name, number))
}

#[test]
fn options_are_those_of_the_header() {
    let in_header: Vec<(&str, u8)> = HEADER.lines().filter_map(parse).collect();
    assert_eq!(in_header, OPTIONS.map(|(name, option, _)| (name, option.bits())));
    let all = OPTIONS.iter().fold(ListOptions::NONE, |all, (_, option, _)| all | *option);
    assert_eq!(all, ListOptions::ALL);
    for number in 0..=u8::MAX {
        let options = ListOptions::from_bits(number);
        assert_eq!(options.map(ListOptions::bits), (number <= all.bits()).then_some(number));
    }
}

#[test]
fn each_option_is_written() {
    for (name, option, word) in OPTIONS {
        let recursive = option == ListOptions::SELECT_RECURSIVEMATCH;
        let options = if recursive { option | ListOptions::SELECT_SUBSCRIBED } else { option };
        let line = joined(b"a", options, b"", &[b"%"], COMMAND_ROOM).expect(name);
        let selected = if recursive { "SUBSCRIBED RECURSIVEMATCH" } else { word };
        let expected = if name.starts_with("SELECT_") {
            format!("a LIST ({selected}) \"\" (\"%\")\r\n")
        } else {
            format!("a LIST () \"\" (\"%\") RETURN ({word})\r\n")
        };
        assert_eq!(line, expected.as_bytes());
    }
}

/// Every refusal, each before those after it; 6 only from a number that is no set.
#[test]
fn every_refusal_in_its_order() {
    let (none, alone) = (ListOptions::NONE, ListOptions::SELECT_RECURSIVEMATCH);
    let nine: [&[u8]; 9] = [b"%"; 9];
    let one = &nine[..1];
    assert_eq!(joined(b"+", alone, b"\0", &nine, 0), Err(Refusal::LineShape));
    assert_eq!(joined(b"+", alone, b"", &nine, 0), Err(Refusal::Grammar));
    assert_eq!(joined(b"a", alone, b"", &[], 0), Err(Refusal::Grammar));
    assert_eq!(joined(b"a", alone, b"", &nine, 0), Err(Refusal::RecursiveMatchAlone));
    assert_eq!(joined(b"a", none, b"", &nine, 0), Err(Refusal::Patterns));
    assert_eq!(joined(b"a", none, b"", one, 19), Err(Refusal::ShortBuffer));
    assert_eq!(joined(b"a", none, b"", one, 20).expect("a line").len(), 20);
    assert_eq!(join_packed(b"a", 0x84, b"", b"\x01%", &mut []), Err(Refusal::UnknownOption));
    assert_eq!(join_packed(b"a", 0x84, b"", b"\x02%", &mut []), Err(Refusal::Grammar));
}

/// A pattern of over 255 bytes, which no packed list holds: 8 where nothing before it is refused, whatever
/// the buffer.
#[test]
fn a_long_pattern_in_its_order() {
    let (none, alone) = (ListOptions::NONE, ListOptions::SELECT_RECURSIVEMATCH);
    let long = [b'x'; 256];
    let long: [&[u8]; 2] = [b"%", &long];
    for room in [0, COMMAND_ROOM] {
        assert_eq!(joined(b"a", none, b"", &long, room), Err(Refusal::Patterns));
        assert_eq!(joined(b"a", alone, b"", &long, room), Err(Refusal::RecursiveMatchAlone));
        assert_eq!(joined(b"", alone, b"", &long, room), Err(Refusal::Grammar));
        assert_eq!(joined(b"a+", alone, b"", &long, room), Err(Refusal::Grammar));
        assert_eq!(joined(b"a+", alone, b"\0", &long, room), Err(Refusal::LineShape));
        let with_zero: [&[u8]; 3] = [b"%", &[b'x'; 256], b"\0"];
        assert_eq!(joined(b"a+", alone, b"", &with_zero, room), Err(Refusal::LineShape));
    }
}

/// The bytes of a line with one pattern without its tag and its strings. Where RECURSIVEMATCH stands alone,
/// those with SUBSCRIBED beside it, less that word.
fn frame_length(options: ListOptions) -> usize {
    let strings = b"a".len() + b"\"\"\"\"".len();
    let length = |options| joined(b"a", options, b"", &[b""], COMMAND_ROOM).map(|line| line.len());
    let with_criterion = || length(options | ListOptions::SELECT_SUBSCRIBED).expect("a line");
    length(options).unwrap_or_else(|_| with_criterion() - b"SUBSCRIBED ".len()) - strings
}

/// A long pattern in a line of 2,048 bytes is 8, or 4 or 7 before it; in one of a byte more, 3. The length
/// counts the tag, every option, every space, and a string in quotes, with backslashes or as a literal.
#[test]
fn a_long_pattern_in_the_longest_line() {
    let criteria = ListOptions::SELECT_SUBSCRIBED | ListOptions::SELECT_SPECIAL_USE;
    for options in (0..=u8::MAX).filter_map(ListOptions::from_bits) {
        let is_alone = options.has(ListOptions::SELECT_RECURSIVEMATCH)
            && options.bits() & criteria.bits() == 0;
        let judged = if is_alone { Refusal::RecursiveMatchAlone } else { Refusal::Patterns };
        for (byte, written) in [(b'x', 302), (b'"', 602), (b'\\', 602), (b'\r', 307), (0xFF, 307)] {
            for (tag, judged) in [(b"tag".as_slice(), judged), (b"", Refusal::Grammar)] {
                let others = frame_length(options) + tag.len() + written + b" \"\"\"\"".len();
                let long = [byte; 300];
                for (room, expected) in
                    [(COMMAND_ROOM, judged), (COMMAND_ROOM + 1, Refusal::LineShape)]
                {
                    let reference = vec![b'r'; room - others];
                    let given = joined(tag, options, &reference, &[&long, b""], COMMAND_ROOM);
                    assert_eq!(given, Err(expected), "{options:?}, {byte}, {tag:?}");
                }
            }
        }
    }
}

/// A literal of 1,024 bytes, and of one more.
#[test]
fn the_longest_literal() {
    for (length, refusal) in [(256, 8), (1_024, 8), (1_025, 3)] {
        let pattern = vec![0xFF; length];
        let given = joined(b"a", ListOptions::NONE, b"", &[&pattern], COMMAND_ROOM);
        assert_eq!(given.map_err(Refusal::number), Err(refusal), "{length}");
    }
}

/// The joined line is answered with the lines of both commands, and a feeder hands it over whole.
#[test]
fn one_request_for_two() {
    let row = |start, len| Record { flags: 1, start, len, readers: READERS_ALL };
    let mut table = Lent::new(&[row(0, 1), row(1, 3), row(4, 2)], 3, b"aa/bcc");
    let mut lines_of = |line: &[u8]| {
        let mut out = [0; 1_000];
        let answered = table.answer(0, line, &mut out);
        let text = String::from_utf8(out[..answered.expect("an answer").length].to_vec());
        let text = text.expect("text");
        text.lines().filter(|line| line.starts_with("* ")).map(str::to_string).collect::<Vec<_>>()
    };
    let line = |patterns: &[&[u8]]| {
        joined(b"a", ListOptions::RETURN_CHILDREN, b"", patterns, COMMAND_ROOM).expect("a line")
    };
    let [one, other, both] =
        [&[b"a*".as_slice()][..], &[b"%", b"\xFF"], &[b"a*", b"%", b"\xFF"]].map(line);
    let name = |line: &String| line.split('"').nth(3).map(str::to_string);
    let mut merged = [lines_of(&one), lines_of(&other)].concat();
    merged.sort_by_key(name);
    merged.dedup();
    let expected = [
        "* LIST (\\HasChildren) \"/\" \"a\"",
        "* LIST (\\HasNoChildren) \"/\" \"a/b\"",
        "* LIST (\\HasNoChildren) \"/\" \"cc\"",
    ];
    assert_eq!(lines_of(&both), expected);
    assert_eq!(merged, expected);
    assert_eq!(Feeder::default().feed(&both), [Event::GoOn, Event::Command(both.clone())]);
}
