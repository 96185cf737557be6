//! Replays of logs (document 02, W14).

use second::frames::{hex_of, Program, ANSWER, COMMAND, REFUSAL, ROW};
use second::packed::split_rows;
use second::replay::{replay, Stop, Verdict, MAX_ANSWER_DIGITS};
use second::{Record, Store};

use crate::common::{table_of, Rows};

/// The table of the night: one row with no inferiors, one that does not exist.
const ROWS: &Rows = &[("Foo-x", "0001"), ("Foo/Bar", "0011"), ("Foo/Baz", "0003"), ("Moo", "0002")];
/// The commands of the night with what is answered; edits are among them, and a reader above 7.
const NIGHT: [(u8, &str, Result<&str, u8>); 7] = [
    (0, "a LSUB \"\" *", Ok("* LSUB () \"/\" \"Foo/Baz\"|* LSUB () \"/\" \"Moo\"|a OK done|")),
    (0, "a SUBSCRIBE Foo/Bar/x", Err(14)),
    (0, "a SUBSCRIBE Foo-x", Ok("a OK done|")),
    (0, "a UNSUBSCRIBE Moo", Ok("a OK done|")),
    (3, "a UNSUBSCRIBE Foo/Baz", Err(16)),
    (8, "a NAMESPACE", Err(16)),
    (7, "a LSUB \"\" *", Ok("* LSUB () \"/\" \"Foo-x\"|* LSUB () \"/\" \"Foo/Baz\"|a OK done|")),
];

fn frame(first: u8, bytes: &[u8]) -> String {
    String::from_utf8(hex_of(&[&[first], bytes].concat())).expect("digits") + "\n"
}

fn command(reader: u8, text: &str) -> String {
    frame(COMMAND, &[&[reader], text.as_bytes(), b"\r\n"].concat())
}

fn answer(answered: Result<&str, u8>) -> String {
    match answered {
        Ok(lines) => frame(ANSWER, lines.replace('|', "\r\n").as_bytes()),
        Err(number) => frame(REFUSAL, &[number]),
    }
}

/// Each frame of the night, with its LF.
fn night() -> Vec<String> {
    NIGHT.iter().flat_map(|&(reader, text, given)| [command(reader, text), answer(given)]).collect()
}

fn store_of(rows: &Rows) -> Store {
    Store::of_rows(&split_rows(&table_of(rows)).0)
}

/// What is reported, a stop by its number alone, and the table at the end.
fn replayed(store: &Store, log: &str) -> (Result<Option<u64>, u64>, Store) {
    let mut store = store.clone();
    let verdict = store.lend(|lent| replay(lent, b"", log.as_bytes()));
    let reported = match verdict {
        Verdict::Agree => Ok(None),
        Verdict::Differs(frame) => Ok(Some(frame)),
        Verdict::Stopped(Stop { frame, .. }) => Err(frame),
    };
    (reported, store)
}

/// The tables after each number of commands that were run.
fn tables() -> Vec<Store> {
    let frames = night();
    (0..=NIGHT.len()).map(|run| replayed(&store_of(ROWS), &frames[..2 * run].concat()).1).collect()
}

#[test]
fn a_night_agrees() {
    let (reported, end) = replayed(&store_of(ROWS), &night().concat());
    assert_eq!(reported, Ok(None));
    assert_eq!(end.count, 3);
    assert_eq!(end.records[0], Record { flags: 3, start: 0, len: 5, readers: 0xFF });
    assert_eq!(&end.area[..23], b"Foo-xFoo/BarFoo/Baz\0\0\0\0");
    // The program keeps the same.
    let mut program = Program::default();
    program.answer(frame(ROW, &table_of(ROWS)).trim_end().as_bytes());
    for (number, frame) in night().iter().step_by(2).enumerate() {
        let given = program.answer(frame.trim_end().as_bytes()).expect("an answer").to_line();
        assert_eq!(given, night()[2 * number + 1].as_bytes());
    }
    assert_eq!(program.store, Some(end));
}

#[test]
fn nothing_agrees() {
    assert_eq!(replayed(&store_of(ROWS), ""), (Ok(None), store_of(ROWS)));
}

/// "the number of the first frame of 43 whose recorded answer differs": later ones are run and change nothing of it.
#[test]
fn answers_that_differ() {
    let end = &tables()[NIGHT.len()];
    for first in 0..NIGHT.len() {
        for other in first..NIGHT.len() {
            let mut frames = night();
            frames[2 * first + 1] = answer(Ok("a OK|"));
            frames[2 * other + 1] = answer(Err(9));
            let number = 2 * first as u64 + 1;
            assert_eq!(
                replayed(&store_of(ROWS), &frames.concat()),
                (Ok(Some(number)), end.clone())
            );
        }
    }
}

/// Every byte of every answer, changed in each bit: it differs, or the frame is another one and is refused.
#[test]
fn bytes_that_are_changed() {
    let frames = night();
    for (at, frame) in frames.iter().enumerate().skip(1).step_by(2) {
        for digit in (0..frame.len() - 1).step_by(2) {
            for bit in 0..8 {
                let byte = u8::from_str_radix(&frame[digit..digit + 2], 16).expect("a byte");
                let mut changed = frames.clone();
                changed[at].replace_range(digit..digit + 2, &format!("{:02X}", byte ^ 1 << bit));
                let number = at as u64;
                // 41 becomes 43, a second command, with one bit; 52 becomes no first byte of a log.
                let expected = if digit == 0 { Err(number + 1) } else { Ok(Some(number)) };
                assert_eq!(replayed(&store_of(ROWS), &changed.concat()).0, expected);
            }
        }
    }
}

/// Frames that stop a log wherever they stand.
fn unreadable() -> Vec<String> {
    let mut frames: Vec<String> = [
        "",
        "4",
        "430",
        "43",
        "52",
        "5200 ",
        "520102",
        "4G",
        "43 00",
        "0x4300",
        "4300\r",
        "4D",
        "4E",
        "57",
        "570000",
        "4D0001FF0161",
        "00",
        "FF",
        "42",
        "44",
        " 41",
        "41\r",
        "4",
        "410",
        "é",
    ]
    .map(|text| format!("{text}\n"))
    .to_vec();
    frames.push(format!("4300{}\n", "0".repeat(4_100)));
    frames.push(format!("5201{}\n", "0".repeat(4_100)));
    frames.push(format!("41{}\n", "0".repeat(MAX_ANSWER_DIGITS)));
    frames.push(format!("41{}\n", "0".repeat(MAX_ANSWER_DIGITS - 1)));
    frames
}

/// At every place, with and without a difference before it; the table is as the commands before left it.
#[test]
fn stops_at_every_place() {
    let tables = tables();
    for differs in [false, true] {
        let mut frames = night();
        if differs {
            frames[1] = answer(Err(3));
        }
        for at in 0..=frames.len() {
            for bad in unreadable() {
                let log = frames[..at].concat() + &bad + &frames[at..].concat();
                let expected = (Err(at as u64 + 1), tables[at / 2].clone());
                assert_eq!(replayed(&store_of(ROWS), &log), expected, "{at} {bad:?}");
            }
        }
    }
}

#[test]
fn frames_out_of_turn() {
    let (frames, tables) = (night(), tables());
    for at in 0..frames.len() {
        // The frame twice: a second 43, which is not the first one's answer, or an answer without a command.
        let log = [&frames[..=at], &frames[at..]].concat().concat();
        let run = at.div_ceil(2);
        assert_eq!(replayed(&store_of(ROWS), &log), (Err(at as u64 + 2), tables[run].clone()));
        // The frame left out.
        let log = [&frames[..at], &frames[at + 1..]].concat().concat();
        let (reported, end) = replayed(&store_of(ROWS), &log);
        let last = at + 1 == frames.len();
        assert_eq!(reported, Err(if last { at as u64 } else { at as u64 + 1 }));
        assert_eq!(end, tables[at / 2]);
    }
}

/// A log cut after every byte: what is there of a frame is unreadable, and an end after 43 is that 43's.
#[test]
fn logs_that_are_cut() {
    let (log, tables) = (night().concat(), tables());
    for length in 0..log.len() {
        let ended = log[..length].matches('\n').count();
        let is_whole = length == 0 || log[..length].ends_with('\n');
        let expected = match (is_whole, ended % 2) {
            (true, 0) => Ok(None),
            (true, _) => Err(ended as u64),
            (false, _) => Err(ended as u64 + 1),
        };
        let given = replayed(&store_of(ROWS), &log[..length]);
        assert_eq!(given, (expected, tables[ended / 2].clone()), "{length}");
    }
}

/// A frame of the longest length is read, and one byte more is not: 4,102 digits, and 32,770 of 41.
#[test]
fn lengths_at_both_sides() {
    let bytes = |first: &str, digits: usize| format!("{first}{}\n", "00".repeat(digits / 2 - 1));
    let refused = answer(Err(3));
    let cases = [
        (bytes("43", 4_102) + &refused, Ok(None)),
        (bytes("43", 4_104) + &refused, Err(1)),
        (command(0, "") + &bytes("41", 4_104), Ok(Some(1))),
        (command(0, "") + &bytes("41", MAX_ANSWER_DIGITS), Ok(Some(1))),
        (command(0, "") + &bytes("41", MAX_ANSWER_DIGITS + 2), Err(2)),
        (command(0, "") + &bytes("52", 4_102), Err(2)),
    ];
    for (log, expected) in cases {
        assert_eq!(replayed(&store_of(ROWS), &log).0, expected, "{} bytes", log.len());
    }
}

/// "41 without bytes is readable and differs from every answer", and digits stand in either case.
#[test]
fn answers_in_either_case() {
    let log = night().concat();
    assert_eq!(replayed(&store_of(ROWS), &log.to_lowercase()), replayed(&store_of(ROWS), &log));
    for given in ["41\n", "5203\n", "5200\n", "520D\n", "52ff\n"] {
        let log = command(0, "a NAMESPACE") + given;
        assert_eq!(replayed(&store_of(ROWS), &log).0, Ok(Some(1)), "{given}");
    }
}

/// A changed command is found where its answer is another one, and nowhere else.
#[test]
fn commands_that_are_changed() {
    let cases = [
        (0, "a LSUB \"\" M*", Some(1)),
        (0, "a LSUB \"\" %", Some(1)),
        (0, "a lsub \"\" *", None),
        (1, "a SUBSCRIBE Foo//Bar", None),
        (2, "a SUBSCRIBE Foo/Baz", Some(13)),
        (3, "a UNSUBSCRIBE Foo/Baz", Some(13)),
        (3, "a UNSUBSCRIBE foo", Some(13)),
    ];
    for (number, text, expected) in cases {
        let mut frames = night();
        frames[2 * number] = command(0, text);
        assert_eq!(replayed(&store_of(ROWS), &frames.concat()).0, Ok(expected), "{text}");
    }
}

/// A table that does not pass is no refusal of the replay: each command is answered 1, and a list 2.
#[test]
fn tables_that_do_not_pass() {
    let bad = store_of(&[("b", "0001"), ("a", "0001")]);
    let log = [command(0, "a NAMESPACE"), answer(Err(1)), command(9, ""), answer(Err(16))].concat();
    assert_eq!(replayed(&bad, &log), (Ok(None), bad.clone()));
    let log = [command(0, "a SUBSCRIBE a"), answer(Ok("a OK done|"))].concat();
    assert_eq!(replayed(&bad, &log), (Ok(Some(1)), bad.clone()));
    let log = [command(0, "a SUBSCRIBE a"), answer(Err(2))].concat();
    let verdict = store_of(ROWS).lend(|lent| replay(lent, b"\x03", log.as_bytes()));
    assert_eq!(verdict, Verdict::Agree);
}
