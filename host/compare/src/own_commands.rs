//! The collector's own commands (document 02, W12): "We believe that the collector never passes on 3 to 8
//! from one of its own commands." Walks below the longest and oddest names that a table may have send the
//! longest commands.

use formats::frames::SentFrame;
use formats::name::{ancestors, MAX_LEVELS, MAX_NAME};
use second::collector::own_commands;
use second::{collect, Refusal, Table};

use crate::random::Random;
use crate::reached::Reached;
use crate::readers::{lawful_reader, some_reader, veil};
use crate::sending::Sending;
use crate::subjects::Subject;
use crate::tables::{rows_named, table_bytes, NewRow};
use crate::trials::{Answered, Claim, Law, Trial, JUDGED};
use crate::walks::{some_walk, WALKS};

/// The most names of a table. Six of sixteen levels have more ancestors than the program's pending holds.
const MOST_NAMES: usize = 6;
/// How many levels, and how many bytes in all.
const LEVELS: [usize; 6] = [2, 2, 3, 8, MAX_LEVELS, MAX_LEVELS];
const LENGTHS: [usize; 5] = [MAX_NAME, MAX_NAME, MAX_NAME, MAX_NAME - 1, 150];
/// Bytes that a level is made of, over and over. The first byte of each level is a quote or a backslash.
const FILLS: [&[u8]; 8] =
    [b"\"", b"\"", b"\\", b"\\", b"\"\\", b"\\\\\"", b"(\") {3}]", b"~\\ x\"+/INBOX0-"];
/// More than any walk here needs.
const ROOM: usize = 16_384;
/// Walks whose commands are asked over one table, and the readers of a session.
const WALKS_A_TABLE: usize = 2;
const READERS: usize = 3;

/// Of the walks, the one that selects all options.
const WORDIEST: usize = 3;

/// A pending name of 198 bytes, all of them escaped: the longest, since one byte and "/" lie below it.
const LONGEST: &str = "the longest own command";
const DEEPEST: &str = "a command below 15 levels";
const LINES: &str = "an answer with lines";

pub const LAW: Law = Law { trial, needed };

fn needed() -> Vec<String> {
    [LONGEST, DEEPEST, LINES].map(str::to_string).to_vec()
}

/// A command that a walk sends.
struct Own {
    at: usize,
    is_longest: bool,
    is_deepest: bool,
}

/// What walks send, as commands of their reader.
fn trial(random: &mut Random) -> Trial {
    let rows = if random.percent(80) { longest_rows(random) } else { Subject::some(random).rows };
    let bytes = table_bytes(&rows);
    let mut trial = Trial::over(rows);
    let longest = longest_command();
    for _ in 0..WALKS_A_TABLE {
        let walk = if random.percent(40) { &WALKS[WORDIEST] } else { some_walk(random) };
        let (reader, option) = (lawful_reader(random), walk.option);
        for (line, pending) in sent(reader, &bytes, option) {
            let is_longest = line.len() == longest;
            let is_deepest = ancestors(&pending).count() + 1 == MAX_LEVELS - 1;
            let at = trial.ask(reader, line);
            trial.claims.push(Box::new(Own { at, is_longest, is_deepest }));
        }
    }
    trial
}

/// The commands of a walk over a table that passes, each with the pending name that it is made from, empty
/// for the first.
fn sent(reader: u8, table: &[u8], option: u8) -> Vec<(Vec<u8>, Vec<u8>)> {
    let [mut scratch, mut found, mut pending] = [(); 3].map(|()| vec![0; ROOM]);
    let table = Table::Packed(table);
    let walked = collect(reader, table, option, &mut scratch, &mut found, &mut pending);
    let (count, _) = walked.expect("a walk with room enough");
    let commands = own_commands(option, &pending).expect("a lawful option byte");
    assert_eq!(commands.len(), count, "commands made again from pending");
    let mut names = vec![Vec::new()];
    let mut rest = pending.as_slice();
    while names.len() < count {
        let (name, after) = rest[1..].split_at(usize::from(rest[0]));
        names.push(name.to_vec());
        rest = after;
    }
    commands.into_iter().zip(names).collect()
}

/// The length of the longest command that a walk may send.
fn longest_command() -> usize {
    WALKS[WORDIEST].command_below(&[b'"'; MAX_NAME - 2]).len()
}

impl Claim for Own {
    fn places(&self) -> Vec<usize> {
        vec![self.at]
    }

    fn judge(&self, _: &[NewRow], answers: &[Answered]) -> Result<Reached, String> {
        let answered = &answers[self.at];
        let is_short = *answered == Err(Refusal::AnswerRoom.number());
        if let (Err(number), false) = (answered, is_short) {
            return Err(format!("an own command is refused with {number}"));
        }
        let has_lines = answered.as_ref().is_ok_and(|lines| !lines.is_empty());
        let mut reached = Reached::default();
        reached.add_held([
            (JUDGED, true),
            (LONGEST, self.is_longest),
            (DEEPEST, self.is_deepest),
            (LINES, has_lines),
            ("refused with 9", is_short),
        ]);
        Ok(reached)
    }
}

/// Walks of several readers over such tables, and every option byte that is refused.
pub fn walks_below_the_longest_names(random: &mut Random) -> Vec<SentFrame> {
    let rows = longest_rows(random);
    let mut sending = Sending::over(random, &rows);
    sending.every_walk();
    for _ in 0..READERS {
        sending.reader = some_reader(sending.random);
        sending.every_walk();
    }
    sending.frames
}

/// Rows with the longest and oddest names, most of which meet the criteria of some walk.
pub fn longest_rows(random: &mut Random) -> Vec<NewRow> {
    let mut names: Vec<Vec<u8>> = Vec::new();
    for _ in 0..random.within(1..=MOST_NAMES) {
        let name = match names.last() {
            Some(last) if random.percent(40) => beside(random, last),
            _ => long_name(random),
        };
        names.push(name);
    }
    let mut rows = rows_named(random, names);
    for row in &mut rows {
        if random.percent(85) {
            let walk = if random.percent(50) { &WALKS[WORDIEST] } else { some_walk(random) };
            row.flags = walk.flags;
        }
    }
    if random.percent(40) {
        veil(random, &mut rows);
    }
    rows
}

/// A name of many levels or few, in which the last level has one byte, mostly: then the level above it is
/// as long as may be.
fn long_name(random: &mut Random) -> Vec<u8> {
    let levels = LEVELS[random.below(LEVELS.len())];
    let length = LENGTHS[random.below(LENGTHS.len())];
    let mut lengths = vec![1; levels];
    let growing = if random.percent(75) { levels - 1 } else { levels };
    for at in 0..length - (2 * levels - 1) {
        lengths[at % growing] += 1;
    }
    let level = |length: usize| {
        let fill = random.pick(&FILLS);
        let first = fill.iter().find(|byte| b"\"\\".contains(byte)).into_iter();
        let rest = fill.iter().filter(|&&byte| byte != b'/').cycle();
        first.chain(rest).take(length).copied().collect::<Vec<u8>>()
    };
    lengths.into_iter().map(level).collect::<Vec<_>>().join(&b'/')
}

/// A name with the same levels above it, and another last level of the same length.
fn beside(random: &mut Random, name: &[u8]) -> Vec<u8> {
    let mut name = name.to_vec();
    let start = name.iter().rposition(|&byte| byte == b'/').map_or(0, |at| at + 1);
    name[start] = *random.pick(&[&b'"', &b'\\', &b' ', &b'~', &b'{']);
    name
}
