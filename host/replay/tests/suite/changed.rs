//! A log with something changed: it is found, with the right number.

use formats::hex::bytes_of_hex;
use luspemaro::Verdict;
use replay::{in_stack, store_of, KeptTable, Start};
use second::replay::Verdict as SecondVerdict;
use second::Store;

use crate::common::*;

/// A night of few frames, as a start and its frames.
fn small() -> (Start, Vec<String>) {
    let commands = b"a LSUB \"\" *\r\nb SUBSCRIBE Sent\r\nc UNSUBSCRIBE Gone\r\nd LIST (FOO) \"\" *\r\ne LIST (SUBSCRIBED) \"\" *\r\n";
    let record = path("night.frames");
    let account = account_of(SESSION, &record, None);
    [0, 1].iter().for_each(|&reader| drop(converse_with(&account, reader, commands)));
    account.end().expect("a record");
    let record = read(&record);
    let (heading, frames) = split_record(&record);
    let start =
        Start::of_heading(&mut replay::Pieces::new(heading.as_bytes(), false)).expect("a heading");
    assert!(frames.len() == 20 && frames.iter().any(|frame| frame.starts_with("52")), "{frames:?}");
    (start, frames)
}

fn log_of(frames: &[String]) -> Vec<u8> {
    frames.iter().flat_map(|frame| format!("{frame}\n").into_bytes()).collect()
}

/// By the library, whole and as this tool follows it; and by the second program, which has to say the same.
fn verdict_of(start: &Start, log: &[u8]) -> Verdict {
    let mut table = start.table().expect("a table");
    let mut following = replay::Following::new(start, table.clone(), false, None);
    following.take(log).expect("a log");
    let followed = following.end().expect("a log");
    let verdict = table.replay(&start.entries, log).verdict;
    assert_eq!(followed.verdict, verdict, "{}", text(log));
    assert_eq!(followed.table, table);
    let (second, store) = second_of(start, log);
    assert_eq!((second, store.as_ref()), (verdict, store_of(&table).as_ref()), "{}", text(log));
    verdict
}

fn second_of(start: &Start, log: &[u8]) -> (Verdict, Option<Store>) {
    let table = KeptTable::of_packed(&start.rows).expect("a table");
    let mut store = store_of(&table).expect("a table that passes");
    let verdict = match store.lend(|lent| second::replay(lent, &start.entries, log)) {
        SecondVerdict::Agree => Verdict::Agree,
        SecondVerdict::Differs(frame) => Verdict::Differs(frame as usize),
        SecondVerdict::Stopped(stop) => Verdict::Refused(stop.frame as usize),
    };
    (verdict, Some(store))
}

/// Each frame of a log with every digit of it changed in every way that a test wants.
fn each_change(
    frames: &[String],
    is_one: impl Fn(&str) -> bool,
    ways: &[u8],
    mut check: impl FnMut(usize, usize, &[u8]),
) {
    for (at, frame) in frames.iter().enumerate().filter(|(_, frame)| is_one(frame)) {
        for place in 0..frame.len() {
            for &way in ways {
                let mut changed = frames.to_vec();
                let mut bytes = frame.clone().into_bytes();
                bytes[place] = if way == 0 { bytes[place] ^ 1 } else { way };
                if bytes[place].eq_ignore_ascii_case(&frame.as_bytes()[place]) {
                    continue;
                }
                changed[at] = text(&bytes);
                check(at, place, &log_of(&changed));
            }
        }
    }
}

fn is_answer(frame: &str) -> bool {
    frame.starts_with("41") || frame.starts_with("52")
}

/// Every digit of every recorded answer, changed to another digit and to what is none. Where the frame can be read still, the
/// 43 before it differs; else the log is stopped at the answer.
#[test]
fn every_byte_of_every_answer() {
    let (start, frames) = small();
    assert_eq!(in_stack(|| Ok(verdict_of(&start, &log_of(&frames)))), Ok(Verdict::Agree));
    in_stack(|| {
        let mut seen = [0; 2];
        each_change(&frames, is_answer, b"\x000789fG ", |at, _, log| {
            let frame = log.split(|&byte| byte == b'\n').nth(at).expect("a frame");
            let bytes = bytes_of_hex(frame).unwrap_or_default();
            let is_read = matches!(bytes.as_slice(), [0x41, ..] | [0x52, _]);
            let expected = if is_read { Verdict::Differs(at) } else { Verdict::Refused(at + 1) };
            assert_eq!(verdict_of(&start, log), expected, "frame {}", at + 1);
            seen[usize::from(is_read)] += 1;
        });
        assert!(seen.iter().all(|&count| count > 500), "{seen:?}");
        Ok(())
    })
    .expect("a test");
}

/// The case of a digit says nothing.
#[test]
fn the_case_of_every_digit() {
    let (start, frames) = small();
    in_stack(|| {
        let mut count = 0;
        for (at, frame) in frames.iter().enumerate() {
            for (place, _) in frame.match_indices(|digit: char| digit.is_ascii_alphabetic()) {
                let mut changed = frames.clone();
                changed[at]
                    .replace_range(place..=place, &frame[place..=place].to_ascii_lowercase());
                assert_ne!(changed, frames);
                assert_eq!(
                    verdict_of(&start, &log_of(&changed)),
                    Verdict::Agree,
                    "frame {}, digit {place}",
                    at + 1
                );
                count += 1;
            }
        }
        assert!(count > 100, "{count}");
        let lower: Vec<String> = frames.iter().map(|frame| frame.to_ascii_lowercase()).collect();
        assert_eq!(verdict_of(&start, &log_of(&lower)), Verdict::Agree);
        Ok(())
    })
    .expect("a test");
}

/// A changed command is found exactly where an answer is another one: there and after it, as the second program has it.
#[test]
fn every_byte_of_every_command() {
    let (start, frames) = small();
    in_stack(|| {
        let mut seen = [0; 3];
        each_change(
            &frames,
            |frame| frame.starts_with("43"),
            b"\x0027F",
            |at, _, log| match verdict_of(&start, log) {
                Verdict::Agree => seen[0] += 1,
                Verdict::Differs(frame) => {
                    assert!(frame > at, "frame {frame} is before the change");
                    seen[1] += 1;
                }
                Verdict::Refused(frame) => {
                    assert_eq!(frame, at + 1);
                    seen[2] += 1;
                }
            },
        );
        assert!(seen.iter().all(|&count| count > 20), "{seen:?}");
        Ok(())
    })
    .expect("a test");
}

/// Frames that are gone, twice there or in another order, and bytes that are gone at the end.
#[test]
fn frames_that_are_moved() {
    let (start, frames) = small();
    in_stack(|| {
        for at in 0..frames.len() {
            let mut gone = frames.clone();
            gone.remove(at);
            let mut twice = frames.clone();
            twice.insert(at, frames[at].clone());
            let mut swapped = frames.clone();
            swapped.swap(at, (at + 1) % frames.len());
            for changed in [gone, twice, swapped] {
                assert!(
                    matches!(verdict_of(&start, &log_of(&changed)), Verdict::Refused(_)),
                    "{at}"
                );
            }
        }
        let log = log_of(&frames);
        let ends: Vec<usize> =
            (0..=log.len()).filter(|&at| at == 0 || log[at - 1] == b'\n').collect();
        for length in 0..=log.len() {
            let frame = ends.iter().position(|&end| end == length);
            let is_whole = frame.is_some_and(|frame| frame % 2 == 0);
            assert_eq!(verdict_of(&start, &log[..length]) == Verdict::Agree, is_whole, "{length}");
        }
        Ok(())
    })
    .expect("a test");
}

/// However a log is cut into pieces, the account is the same; every difference is found with `finds_all`, and the first
/// without.
#[test]
fn pieces_and_differences() {
    let (start, mut frames) = small();
    frames[3] = "520E".to_string();
    frames[9] = frames[9].replacen("41", "4141", 1);
    frames[13] = "5205".to_string();
    let log = log_of(&frames);
    in_stack(|| {
        for piece in [1, 2, 3, 7, 64, 1_000, log.len()] {
            for finds_all in [false, true] {
                let table = start.table().expect("a table");
                let mut following = replay::Following::new(&start, table, finds_all, None);
                log.chunks(piece).for_each(|piece| following.take(piece).expect("a log"));
                let followed = following.end().expect("a log");
                let numbers: Vec<u64> = followed.differences.iter().map(|one| one.frame).collect();
                let expected: &[u64] = if finds_all { &[3, 9, 13] } else { &[3] };
                assert_eq!((numbers.as_slice(), followed.verdict), (expected, Verdict::Differs(3)));
                assert_eq!(followed.counts.differing, expected.len() as u64);
                assert_eq!((followed.counts.frames, followed.counts.commands()), (20, 10));
                assert_eq!(followed.differences[0].line, 3 + start.lines());
            }
        }
        Ok(())
    })
    .expect("a test");
}
