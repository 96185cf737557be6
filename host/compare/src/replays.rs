//! Nights to be replayed (document 02, W14): a table, a namespace list and a log of commands with what was answered,
//! as it was or with something changed.

use formats::frames::MAX_DIGITS;
use formats::rows::{Flags, MAX_ROWS};
use second::frames::ANSWER_ROOM;
use second::replay::{Exchange, Recorded, MAX_ANSWER_DIGITS};
use second::store::STORE_AREA;
use second::{answer, Store};

use crate::damage::{damaged_rows, namespace_list};
use crate::edit_series::{odd_count, some_call_of_a_reader, some_veiled_table, Call, Command};
use crate::log_frames::{bad_frames, frames_of, with_lf};
use crate::lsub::subscriptions;
use crate::random::Random;
use crate::readers::veil;
use crate::records::Layout;
use crate::summaries::Damage;
use crate::tables::{names_of, NewRow};

/// What is replayed.
#[derive(Clone)]
pub struct Night {
    pub table: Layout,
    pub namespaces: Vec<u8>,
    pub log: Vec<u8>,
}

/// The longest line that a frame of 43 holds, beside its first byte and that of the reader.
const LONGEST_LINE: usize = MAX_DIGITS / 2 - 2;
/// The most exchanges of a night, and the most rows of a table that is not at a limit.
const EXCHANGES: usize = 24;
const FEW: usize = 14;
/// Rows of names of 50 bytes whose listing has nearly as many bytes as the buffer of an answer.
const ROWS_AT_THE_BUFFER: usize = 230;

/// A night: mostly as the program would log it, else with answers, frames or its end changed.
pub fn some_night(random: &mut Random) -> Night {
    let (mut table, mut names) = some_start(random);
    match random.below(40) {
        0 | 1 => Damage::ALL[random.below(Damage::ALL.len())].apply(random, &mut table),
        2 => table.count = odd_count(random, &table),
        _ => {}
    }
    let namespaces = match random.below(12) {
        0 => namespace_list(random),
        1 => b"\x03\0/".to_vec(),
        2 => b"\0\0/\x01\x01~/".to_vec(),
        _ => Vec::new(),
    };
    let (changed, stopped) = (random.percent(40), random.percent(40));
    let (mut store, mut frames) = (table.clone(), Vec::new());
    for _ in 0..random.within(1..=EXCHANGES) {
        let Command { reader, mut line, .. } = some_command(random, &store, &mut names);
        if random.percent(1) {
            line.resize(LONGEST_LINE - random.below(2), b'x');
        }
        line.truncate(LONGEST_LINE);
        let mut exchange = answered(&mut store, &namespaces, reader, line);
        if changed && random.percent(20) {
            exchange.recorded = another_answer(random, exchange.recorded);
        }
        frames.extend(frames_of(&exchange));
    }
    if stopped {
        stop_somewhere(random, &mut frames);
    }
    Night { table, namespaces, log: log_of(random, &frames) }
}

/// A small night that agrees, and the frames of it, for logs that are tried at every place: edits that insert and
/// remove a row, a refusal of each kind, a reader above 7, and a listing of what is left.
pub fn small_night() -> (Night, Vec<Vec<u8>>) {
    let lines: [(u8, &[u8]); 7] = [
        (0, b"a LSUB \"\" *\r\n"),
        (0, b"a SUBSCRIBE Foo\r\n"),
        (0, b"a UNSUBSCRIBE Moo\r\n"),
        (3, b"a UNSUBSCRIBE Foo\r\n"),
        (8, b""),
        (0, b"a LIST (FOO) \"\" *\r\n"),
        (7, b"a LIST (SUBSCRIBED) \"\" *\r\n"),
    ];
    let rows = [("Foo-x", 1), ("Foo/Baz", 3), ("Moo", 2)]
        .map(|(name, flags)| NewRow::new(Flags::from_bits(flags), name.as_bytes().to_vec()));
    night_of(kept(&rows), &lines)
}

/// Nights of one listing whose answer has as many bytes as the buffer, one fewer, and one more, which is refused. The
/// length of the tag makes it so.
pub fn nights_at_the_buffer() -> [Night; 3] {
    let row = |at: usize| NewRow::new(Flags::EXISTS, format!("{at:050}").into_bytes());
    let table = kept(&(0..ROWS_AT_THE_BUFFER).map(row).collect::<Vec<_>>());
    let line_of = |tag: usize| [vec![b't'; tag], b" LIST \"\" *\r\n".to_vec()].concat();
    let length = table
        .clone()
        .lend(|lent| answer(0, lent, b"", &line_of(1), &mut [0; ANSWER_ROOM]))
        .expect("an answer that fits")
        .length;
    let longest = 1 + ANSWER_ROOM - length;
    [longest - 1, longest, longest + 1].map(|tag| night_of(table.clone(), &[(0, &line_of(tag))]).0)
}

/// A night of these commands, answered by the second program, and its frames.
fn night_of(table: Layout, lines: &[(u8, &[u8])]) -> (Night, Vec<Vec<u8>>) {
    let mut store = table.clone();
    let mut frames = Vec::new();
    for &(reader, line) in lines {
        frames.extend(frames_of(&answered(&mut store, b"", reader, line.to_vec())));
    }
    let log = with_lf(&frames);
    (Night { table, namespaces: Vec::new(), log }, frames)
}

/// A command with what is answered to it, over a table that it may change.
fn answered(store: &mut Layout, namespaces: &[u8], reader: u8, line: Vec<u8>) -> Exchange {
    let mut exchange = Exchange { frame: 0, reader, line, recorded: Recorded::Refused(0) };
    exchange.recorded = store.lend(|lent| exchange.answered_now(lent, namespaces));
    exchange
}

/// The rows as the program keeps them.
fn kept(rows: &[NewRow]) -> Layout {
    let rows = rows.iter().map(|NewRow { flags, readers, name }| second::rows::Row {
        flags: second::rows::Flags::from_bits(flags.bits()),
        readers: second::Readers::from_bits(readers.bits()),
        name,
    });
    Store::of_rows(&rows.collect::<Vec<_>>())
}

/// A table as the program keeps it, also one that is full or does not pass, or now and then one in any layout; and the
/// names that edits go for.
fn some_start(random: &mut Random) -> (Layout, Vec<Vec<u8>>) {
    let count = random.below(FEW);
    let mut rows = match random.below(24) {
        0 => numbered(MAX_ROWS, 3),
        1 => numbered(MAX_ROWS - 1, 3),
        // No byte is free, or few are.
        2 => numbered(STORE_AREA / 128, 128),
        3 => numbered(81, 200),
        4 => {
            let rows = subscriptions(random, count);
            damaged_rows(random, rows)
        }
        5..8 => return some_veiled_table(random),
        _ => subscriptions(random, count),
    };
    let names = names_of(&rows);
    if random.percent(40) {
        veil(random, &mut rows);
    }
    (kept(&rows), names)
}

/// Rows of names of one length, every second of them 0002.
fn numbered(count: usize, length: usize) -> Vec<NewRow> {
    let flags =
        |number: usize| if number.is_multiple_of(2) { Flags::SUBSCRIBED } else { Flags::EXISTS };
    (0..count).map(|at| NewRow::new(flags(at), format!("{at:0length$}").into_bytes())).collect()
}

/// The next command; a call that is a walk is none.
fn some_command(random: &mut Random, store: &Layout, names: &mut Vec<Vec<u8>>) -> Command {
    loop {
        if let Call::Answer(command) = some_call_of_a_reader(random, store, names) {
            return command;
        }
    }
}

/// An answer that was not given: with a byte changed, left out or added, another number, the other kind, or none.
fn another_answer(random: &mut Random, recorded: Recorded) -> Recorded {
    match recorded {
        Recorded::Lines(mut lines) => {
            let at = random.below(lines.len());
            match random.below(7) {
                0 => lines[at] ^= 1 << random.below(8),
                1 => drop(lines.remove(at)),
                2 => lines.insert(at, random.byte()),
                3 => lines.clear(),
                4 => lines.resize(MAX_ANSWER_DIGITS / 2 - 1, b'x'),
                5 => drop(lines.pop()),
                _ => return Recorded::Refused(random.byte()),
            }
            Recorded::Lines(lines)
        }
        Recorded::Refused(number) => match random.below(3) {
            0 => Recorded::Refused(number ^ 1 << random.below(8)),
            1 => Recorded::Refused(random.below(20) as u8),
            _ => Recorded::Lines(b"a OK done\r\n".to_vec()),
        },
    }
}

/// Puts a bad frame somewhere, a frame twice, takes one out, or cuts one short.
fn stop_somewhere(random: &mut Random, frames: &mut Vec<Vec<u8>>) {
    let at = random.below(frames.len());
    match random.below(6) {
        0..3 => {
            let bad = bad_frames();
            frames.insert(at, bad[random.below(bad.len())].1.clone());
        }
        3 => frames.insert(at, frames[at].clone()),
        4 => drop(frames.remove(at)),
        _ => {
            let length = random.below(frames[at].len() + 1);
            frames[at].truncate(length);
        }
    }
}

/// The log of frames, with digits of either case; now and then its end is missing.
fn log_of(random: &mut Random, frames: &[Vec<u8>]) -> Vec<u8> {
    let mut log = with_lf(frames);
    match random.below(10) {
        0 | 1 => log.make_ascii_lowercase(),
        2 => log.iter_mut().filter(|_| random.percent(50)).for_each(u8::make_ascii_lowercase),
        _ => {}
    }
    match random.below(12) {
        0 => log.truncate(random.below(log.len() + 1)),
        1 => drop(log.pop()),
        _ => {}
    }
    log
}
