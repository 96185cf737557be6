//! What the tools read, by the crate `formats`, is what the second program reads by itself: frames, rows, entries, names,
//! lines, quoted strings, logs and refusals, generated ones and the same damaged.

use compare::damage::{damaged_bytes, odd_name};
use compare::kinds;
use compare::log_frames::bad_frames;
use compare::random::Random;
use compare::replays::some_night;
use formats::frames::Frame;
use formats::hex::{bytes_of_hex, hex_of};
use formats::list_line::{LineWord, ListLine};
use formats::namespaces::split_entries;
use formats::quoted::{push_quoted, read_quoted};
use formats::refusal::Refusal;
use formats::rows::split_rows;
use formats::{log, name};
use second::frames::{Answer, Program};
use second::line::Attributes;
use second::replay::Turns;

/// Of each kind.
const SEEDS: u64 = 20;
const NIGHTS: u64 = 1_000;
/// Damaged copies of each frame, line or name.
const DAMAGED: usize = 2;

/// Bytes, and damaged copies of them.
fn with_damaged(random: &mut Random, bytes: &[u8]) -> Vec<Vec<u8>> {
    let damaged = (0..DAMAGED).map(|_| damaged_bytes(random, bytes.to_vec()));
    [bytes.to_vec()].into_iter().chain(damaged).collect()
}

#[test]
fn frames() {
    let mut random = Random::of("formats: frames", 0);
    let mut frames = [0; 2];
    for (kind, seed) in kinds().flat_map(|kind| (0..SEEDS).map(move |seed| (kind, seed))) {
        for sent in kind.session(seed) {
            for text in with_damaged(&mut random, &sent.text) {
                frames[usize::from(check_frame(&text))] += 1;
            }
        }
    }
    assert!(frames.into_iter().all(|count| count > 10_000), "{frames:?}");
}

/// Whether a frame can be read, in which it is alike; and what it holds is read alike too.
fn check_frame(text: &[u8]) -> bool {
    let (frame, other) = (Frame::decode(text), second::frames::Frame::decode(text));
    let other = other.map(|other| match other {
        second::frames::Frame::Row(row) => Frame::Row(row),
        second::frames::Frame::Entry(entry) => Frame::Entry(entry),
        second::frames::Frame::Command { reader, line } => Frame::Command { reader, line },
        second::frames::Frame::Walk { reader, option } => Frame::Walk { reader, option },
    });
    assert_eq!(frame, other);
    assert_eq!(bytes_of_hex(text), second::frames::bytes_of_hex(text));
    if let Ok(frame) = &frame {
        assert!(frame.encode().eq_ignore_ascii_case(text));
    }
    match &frame {
        Ok(Frame::Row(bytes)) => check_rows(bytes),
        Ok(Frame::Entry(bytes)) => check_entries(bytes),
        _ => {}
    }
    frame.is_ok()
}

fn check_rows(bytes: &[u8]) {
    let ((rows, rest), (others, other_rest)) =
        (split_rows(bytes), second::packed::split_rows(bytes));
    assert_eq!((rows.len(), rest), (others.len(), other_rest));
    for (row, other) in rows.iter().zip(others) {
        let bits = (other.flags.bits(), other.readers.bits());
        assert_eq!((row.flags.bits(), row.readers.bits(), row.name), (bits.0, bits.1, other.name));
        assert_eq!(row.to_bytes(), other.to_bytes());
        check_name(row.name);
    }
}

fn check_entries(bytes: &[u8]) {
    let ((entries, rest), (others, other_rest)) =
        (split_entries(bytes), second::namespaces::split_entries(bytes));
    assert_eq!((entries.len(), rest), (others.len(), other_rest));
    for (entry, other) in entries.iter().zip(others) {
        let parts = (entry.class, entry.prefix, entry.delimiter);
        assert_eq!(parts, (other.class, other.prefix, other.delimiter));
        assert_eq!(entry.to_bytes(), other.to_bytes());
    }
}

fn check_name(name: &[u8]) {
    assert_eq!(name::broken_rule(name), second::name::broken_rule(name), "{name:?}");
    assert_eq!(name::spelled(name), second::name::spelled(name), "{name:?}");
    assert!(name::ancestors(name).eq(second::name::ancestors(name)), "{name:?}");
    let mut text = Vec::new();
    push_quoted(&mut text, name);
    let mut other = Vec::new();
    second::quoted::push_quoted(&mut other, name);
    assert_eq!(text, other);
    assert_eq!(read_quoted(&text), Some((name.to_vec(), &b""[..])));
}

#[test]
fn names_and_quotes() {
    let mut random = Random::of("formats: names", 0);
    for name in [&b"Foo"[..], b"a/b/c", b"INBOX", b"inbox/x", b"Inbox-", b"\\\"/\\", b"&APw-"] {
        for _ in 0..2_000 {
            let odd = odd_name(&mut random, name);
            check_name(&odd);
            let quoted = [b"\"", &odd[..], b"\" x"].concat();
            for text in with_damaged(&mut random, &quoted) {
                assert_eq!(read_quoted(&text), second::quoted::read_quoted(&text), "{text:?}");
            }
        }
    }
}

#[test]
fn lines() {
    let mut random = Random::of("formats: lines", 0);
    let mut lines = [0; 2];
    for (kind, seed) in kinds().flat_map(|kind| (0..SEEDS).map(move |seed| (kind, seed))) {
        let mut program = Program::default();
        for sent in kind.session(seed) {
            let Some(Answer::Lines(answer)) = program.answer(&sent.text) else {
                continue;
            };
            for line in answer.split_inclusive(|&byte| byte == b'\n') {
                for line in with_damaged(&mut random, line) {
                    lines[usize::from(check_line(&line))] += 1;
                }
            }
        }
    }
    assert!(lines.into_iter().all(|count| count > 10_000), "{lines:?}");
}

/// Whether a line names a mailbox, in which it is alike. The second program reads no LSUB line, so that is read as a LIST line.
fn check_line(line: &[u8]) -> bool {
    let read = ListLine::of(line);
    let listed = match line.strip_prefix(b"* LSUB ") {
        Some(rest) => [b"* LIST ", rest].concat(),
        None => line.to_vec(),
    };
    let other = second::read_line(&listed).ok();
    assert_eq!(read.is_some(), other.is_some(), "{line:?}");
    let (Some(read), Some(other)) = (read, other) else {
        return false;
    };
    assert_eq!(read.word == LineWord::Lsub, line != listed);
    assert_eq!((&read.name, read.childinfo.is_empty()), (&other.name, other.childinfo.is_empty()));
    let attributes: Vec<&str> = read.attributes.iter().map(|attribute| &attribute[1..]).collect();
    let attributes = attributes.join(" ").to_ascii_lowercase();
    let has = |word: &str| attributes.split(' ').any(|one| one == word);
    for (attribute, word) in [
        (Attributes::MARKED, "marked"),
        (Attributes::NON_EXISTENT, "nonexistent"),
        (Attributes::SUBSCRIBED, "subscribed"),
        (Attributes::HAS_NO_CHILDREN, "hasnochildren"),
    ] {
        assert_eq!(has(word), Attributes::from_bits(other.attrs).has(attribute), "{line:?}");
    }
    assert_eq!(read.attributes.len(), other.attrs.count_ones() as usize);
    true
}

#[test]
fn logs() {
    let mut stopped = 0;
    for seed in 0..NIGHTS {
        let mut random = Random::of("formats: logs", seed);
        stopped += u64::from(check_log(&some_night(&mut random).log));
    }
    for (_, frame) in bad_frames() {
        let log = [&frame[..], b"\n"].concat();
        assert!(check_log(&log) && check_log(&[b"430061\n", &log[..]].concat()));
    }
    assert!((NIGHTS / 10..NIGHTS).contains(&stopped), "{stopped}");
}

/// Whether a log is stopped; its exchanges and its end are alike.
fn check_log(log: &[u8]) -> bool {
    let (mut turns, mut others) = (log::Turns::default(), Turns::default());
    for frame in log.split_inclusive(|&byte| byte == b'\n') {
        let Some(text) = frame.strip_suffix(b"\n") else {
            assert_eq!(turns.cut().frame, others.cut().frame);
            return true;
        };
        match (turns.take(text), others.take(text)) {
            (Ok(None), Ok(None)) => {}
            (Ok(Some(one)), Ok(Some(other))) => {
                assert_eq!((one.frame, one.reader), (other.frame, other.reader));
                assert_eq!((&one.line, one.recorded), (&other.line, recorded(&other.recorded)));
            }
            (Err(stop), Err(other)) => {
                assert_eq!(stop.frame, other.frame);
                return true;
            }
            (one, other) => panic!("{one:?} and {other:?}"),
        }
    }
    let (end, other) = (turns.end(), others.end());
    assert_eq!(end.map_err(|stop| stop.frame), other.map_err(|stop| stop.frame));
    end.is_err()
}

fn recorded(other: &second::replay::Recorded) -> log::Recorded {
    match other {
        second::replay::Recorded::Lines(lines) => log::Recorded::Lines(lines.clone()),
        second::replay::Recorded::Refused(number) => log::Recorded::Refused(*number),
    }
}

#[test]
fn refusals() {
    for number in 0..=u8::MAX {
        let refusal = Refusal::from_number(number).map(|refusal| refusal.to_string());
        let other = second::Refusal::from_number(number).map(|refusal| refusal.to_string());
        assert_eq!(refusal, other);
    }
}

#[test]
fn hexadecimal() {
    let bytes: Vec<u8> = (0..=u8::MAX).collect();
    assert_eq!(hex_of(&bytes), second::frames::hex_of(&bytes));
    for digits in [&b"0"[..], b"0g", b"+1", b"1 ", b"aF", b"", b"\xFF0"] {
        assert_eq!(bytes_of_hex(digits), second::frames::bytes_of_hex(digits), "{digits:?}");
    }
}
