//! The replay of a night (document 02, W14), called from Rust.

mod common;

use common::{Lent, SPARE};
use luspemaro::{replay, Record, Replay, Replayed, Summary, Verdict, READERS_ALL};

const OK: &str = "a OK done\r\n";
/// The commands of the night with what is answered; edits are among them, and a reader above 7.
const NIGHT: [(u8, &str, Result<&str, u8>); 8] = [
    (
        0,
        "a LSUB \"\" *",
        Ok("* LSUB () \"/\" \"Foo/Baz\"\r\n* LSUB () \"/\" \"Moo\"\r\na OK done\r\n"),
    ),
    (0, "a SUBSCRIBE Foo", Ok(OK)),
    (0, "a UNSUBSCRIBE Moo", Ok(OK)),
    (3, "a UNSUBSCRIBE Foo/Baz", Err(16)),
    (8, "a NAMESPACE", Err(16)),
    (0, "a SUBSCRIBE \"Foo//x\"", Err(14)),
    (0, "a SUBSCRIBE Fourteen-bytes", Err(15)),
    (
        7,
        "a LSUB \"\" *",
        Ok("* LSUB () \"/\" \"Foo\"\r\n* LSUB () \"/\" \"Foo/Baz\"\r\na OK done\r\n"),
    ),
];
const FRAMES: usize = 2 * NIGHT.len();

/// Frames that stop a log wherever they stand.
const BAD_FRAMES: [&str; 18] = [
    "",
    "4",
    "43",
    "52",
    "520102",
    "4300610",
    "410",
    "52010",
    "4300G1",
    "41g0",
    "43 00",
    "4300\r",
    "0x4300",
    "42",
    "4D0001FF0161",
    "4E00002F",
    "570000",
    "\0",
];

const fn row(flags: u16, start: u16, len: u8) -> Record {
    Record { flags, start, len, readers: READERS_ALL }
}

/// Foo-x exists, Foo/Baz is subscribed, Moo does not exist; two records are spare, and four bytes free.
fn start() -> Lent {
    let records = [row(1, 0, 5), row(3, 5, 7), row(2, 12, 3), row(8, 8, 8), row(9, 9, 9)];
    Lent::new(&records, 3, b"Foo-xFoo/BazMoo----")
}

/// The table after each number of commands that were run.
fn tables() -> Vec<Lent> {
    let mut table = start();
    let mut tables = vec![start()];
    for (reader, line, given) in NIGHT {
        let mut out = [0; 200];
        let answered = table.answer(reader, format!("{line}\r\n").as_bytes(), &mut out);
        let answered = answered.map(|answered| &out[..answered.length]);
        let expected = given.map(str::as_bytes);
        assert_eq!(answered.map_err(|refusal| refusal.number()), expected, "{line}");
        tables.push(table.clone());
    }
    tables
}

fn hex(bytes: &[u8]) -> String {
    bytes.iter().map(|byte| format!("{byte:02X}")).collect()
}

fn command(reader: u8, line: &str) -> String {
    hex(&[&[0x43, reader], line.as_bytes(), b"\r\n"].concat())
}

fn answer(given: Result<&str, u8>) -> String {
    match given {
        Ok(lines) => hex(&[b"\x41", lines.as_bytes()].concat()),
        Err(number) => hex(&[0x52, number]),
    }
}

/// Each frame of the night, without its LF.
fn night() -> Vec<String> {
    let frames = |(reader, line, given)| [command(reader, line), answer(given)];
    NIGHT.into_iter().flat_map(frames).collect()
}

fn log_of(frames: &[impl AsRef<str>]) -> Vec<u8> {
    frames.iter().map(|frame| format!("{}\n", frame.as_ref())).collect::<String>().into_bytes()
}

/// What a replay of a whole log from the start of the night reports, and the table at its end.
fn replayed(log: &[u8]) -> (Verdict, Lent) {
    let mut table = start();
    let Replayed { verdict, count } = replay(table.lend(), b"", log);
    table.count = count;
    (verdict, table)
}

/// The same in pieces: the last report.
fn replayed_in<'l>(pieces: impl IntoIterator<Item = &'l [u8]>) -> (Verdict, Lent) {
    let (mut table, mut replay) = (start(), Replay::default());
    let mut verdict = Verdict::Agree;
    for piece in pieces {
        let report = replay.feed(table.lend(), b"", piece).expect("a piece that is taken");
        (verdict, table.count) = (report.verdict, report.count);
    }
    (verdict, table)
}

/// Reported for a log, whole and in pieces of one byte.
fn reported(log: &[u8]) -> (Verdict, Lent) {
    let whole = replayed(log);
    assert_eq!(replayed_in(log.chunks(1)), whole);
    whole
}

#[test]
fn a_night_agrees() {
    let (verdict, table) = reported(&log_of(&night()));
    assert_eq!(verdict, Verdict::Agree);
    assert_eq!(table, tables()[NIGHT.len()]);
    // What the two edits did.
    assert_eq!((table.count, &table.area[..]), (3, b"Foo-xFoo/Baz\0\0\0Foo-".as_slice()));
    assert_eq!(table.records[0], row(2, 15, 3));
    assert_eq!(table.records[3..], [Record::default(), row(9, 9, 9)]);
    assert_eq!(table.summary[0], Summary(0x0000_0001_0000_0001));
    assert_eq!(table.summary[3..], [Summary(0), SPARE]);
}

#[test]
fn the_empty_log_agrees() {
    assert_eq!(replayed(b""), (Verdict::Agree, start()));
    assert_eq!(replayed_in([b"".as_slice(); 3]), (Verdict::Agree, start()));
    assert_eq!(Replay::new().frames(), 0);
}

/// Digits are of either case; bytes are compared.
#[test]
fn digits_of_either_case() {
    let mut log = log_of(&night());
    log.make_ascii_lowercase();
    assert_eq!(reported(&log).0, Verdict::Agree);
    log.iter_mut().step_by(3).for_each(|byte| byte.make_ascii_uppercase());
    assert_eq!(reported(&log).0, Verdict::Agree);
}

/// The first frame of 43 whose answer differs, whatever differs after it; the table is as if all agreed.
#[test]
fn the_first_difference() {
    for at in 0..NIGHT.len() {
        for another in ["41", "5200", "5211", &answer(Ok("b OK done\r\n"))] {
            let mut frames = night();
            another.clone_into(&mut frames[2 * at + 1]);
            let expected = (Verdict::Differs(2 * at + 1), tables()[NIGHT.len()].clone());
            assert_eq!(reported(&log_of(&frames)), expected, "{another} at {at}");
            for later in at + 1..NIGHT.len() {
                "41".clone_into(&mut frames[2 * later + 1]);
            }
            assert_eq!(reported(&log_of(&frames)), expected, "{another} from {at} on");
        }
    }
    // An answer with a byte changed, left out and added.
    let recorded = "* LSUB () \"/\" \"Foo/Baz\"\r\n* LSUB () \"/\" \"Moo\"\r\na OK done\r\n";
    for at in 0..recorded.len() {
        let (before, after) = recorded.split_at(at);
        for other in [
            format!("{before}x{}", &after[1..]),
            format!("{before}{}", &after[1..]),
            format!("{before}x{after}"),
        ] {
            let frames = [command(0, "a LSUB \"\" *"), answer(Ok(&other))];
            assert_eq!(replayed(&log_of(&frames)), (Verdict::Differs(1), start()), "{other}");
        }
    }
}

/// 13 with the number of the frame, whatever differed before; what comes after it is not looked at.
#[test]
fn every_stop_at_every_place() {
    let tables = tables();
    let long_command = "43".repeat(2_052);
    let long_answer = "41".repeat(16_386);
    let long =
        [long_command.as_str(), &long_command[..4_103], &long_answer, &long_answer[..32_771]];
    for bad in BAD_FRAMES.iter().copied().chain(long) {
        for at in 0..=FRAMES {
            let mut frames = night();
            frames.insert(at, bad.to_string());
            let expected = (Verdict::Refused(at + 1), tables[at / 2].clone());
            let log = log_of(&frames);
            assert_eq!(replayed(&log), expected, "{bad} at {at}");
            assert_eq!(replayed_in(log.chunks(777)), expected, "{bad} at {at}, in pieces");
            if at >= 2 {
                "41".clone_into(&mut frames[1]);
                assert_eq!(
                    replayed(&log_of(&frames)),
                    expected,
                    "{bad} at {at}, a difference before it"
                );
            }
        }
    }
}

/// A frame where the other kind is due: the number is that of the frame, and a command without its answer is not run.
#[test]
fn frames_out_of_turn() {
    let tables = tables();
    for at in 0..FRAMES {
        let mut frames = night();
        frames.insert(at, frames[at].clone());
        assert_eq!(
            reported(&log_of(&frames)),
            (Verdict::Refused(at + 2), tables[at.div_ceil(2)].clone())
        );
        let mut frames = night();
        frames.remove(at);
        let is_last = at + 1 == FRAMES;
        let stop = if is_last { at } else { at + 1 };
        assert_eq!(reported(&log_of(&frames)), (Verdict::Refused(stop), tables[at / 2].clone()));
    }
}

/// Every beginning of a log: an end inside of a frame, after 43 and after an answer. A report after each piece is that
/// of the log so far.
#[test]
fn every_beginning_and_every_cut() {
    let (log, tables) = (log_of(&night()), tables());
    let (mut table, mut replay) = (start(), Replay::new());
    for end in 0..=log.len() {
        let frames = log[..end].iter().filter(|&&byte| byte == b'\n').count();
        let is_cut = end > 0 && log[end - 1] != b'\n';
        let verdict = match frames {
            _ if is_cut => Verdict::Refused(frames + 1),
            frames if frames % 2 == 1 => Verdict::Refused(frames),
            _ => Verdict::Agree,
        };
        let expected = (verdict, tables[frames / 2].clone());
        assert_eq!(replayed(&log[..end]), expected, "the first {end} bytes");
        let piece = if end == 0 { b"" } else { &log[end - 1..end] };
        let report = replay.feed(table.lend(), b"", piece).expect("a piece that is taken");
        table.count = report.count;
        assert_eq!((report.verdict, table.clone(), replay.frames()), (verdict, expected.1, frames));
        let (before, after) = log.split_at(end);
        assert_eq!(replayed_in([before, after]), (Verdict::Agree, tables[NIGHT.len()].clone()));
    }
}

/// After a stop bytes are ignored, also those of a log that would agree.
#[test]
fn nothing_after_a_stop() {
    let log = log_of(&night());
    let stopped = (Verdict::Refused(1), start());
    assert_eq!(replayed_in([b"\n".as_slice(), &log, b"", &log, b"43"]), stopped);
    let (mut table, mut replay) = (start(), Replay::new());
    for piece in [b"52".as_slice(), b"01\n", &log, &log] {
        let report = replay.feed(table.lend(), b"", piece).expect("a piece that is taken");
        assert_eq!(report, Replayed { verdict: Verdict::Refused(1), count: 3 });
    }
    assert_eq!((replay.frames(), table), (1, start()));
}

/// A frame of 43 with 4,102 digits, which is answered 3, and frames of 41 with up to 32,770, which differ.
#[test]
fn the_longest_frames() {
    let command = "4300".to_string() + &"61".repeat(2_049);
    assert_eq!(command.len(), 4_102);
    let log = log_of(&[&command, "5203"]);
    assert_eq!(reported(&log), (Verdict::Agree, start()));
    for digits in [2, 4_102, 4_104, 32_768, 32_770] {
        let answer = "41".repeat(digits / 2);
        assert_eq!(
            reported(&log_of(&[&command, &answer])),
            (Verdict::Differs(1), start()),
            "{digits}"
        );
    }
    let refused = (Verdict::Refused(2), start());
    for digits in [3, 32_769, 32_771, 32_772, 40_000, 70_001] {
        let answer = "4".to_string() + &"1".repeat(digits - 1);
        assert_eq!(reported(&log_of(&[&command, &answer])), refused, "{digits}");
    }
}

/// What does not pass is answered and compared: 1 for the table, 2 for the list, 16 for the reader first.
#[test]
fn what_does_not_pass() {
    let lists: [&[u8]; 2] = [b"", b"\x03\0/"];
    for (table, list, number) in [
        (start(), lists[0], 5),
        (start(), lists[1], 2),
        (Lent { count: 6, ..start() }, lists[1], 1),
    ] {
        let frames = [command(0, "a NOOP"), answer(Err(number)), command(9, ""), answer(Err(16))];
        let mut after = table.clone();
        let report = replay(after.lend(), list, &log_of(&frames));
        assert_eq!((report.verdict, report.count), (Verdict::Agree, table.count));
        assert_eq!(after, table);
    }
    let mut wrong = start();
    wrong.summary[1].0 ^= 1;
    let log = log_of(&[command(0, "a SUBSCRIBE Foo"), answer(Ok(OK))]);
    let report = replay(wrong.lend(), b"", &log);
    assert_eq!(report, Replayed { verdict: Verdict::Differs(1), count: 3 });
}
