//! The kinds of sessions.

use formats::frames::{SentFrame, MAX_DIGITS};
use formats::name::{MAX_LEVELS, MAX_NAME};
use formats::rows::Flags;
use second::shape::MAX_LINE;

use crate::commands::{command, damaged, hostile_pattern, push_value};
use crate::damage::{damaged_table, namespace_list};
use crate::edit_sessions;
use crate::gains;
use crate::joins;
use crate::levels::levels_above;
use crate::limits;
use crate::literals;
use crate::lsub;
use crate::more_patterns;
use crate::own_commands;
use crate::random::Random;
use crate::reader_sessions;
use crate::sending::Sending;
use crate::special_uses;
use crate::tables::{good_table, names_of, rows_named, table_bytes};
use crate::trials::{Law, Trial};
use crate::walks::some_walk;

/// What makes the session of a seed.
type Generator = fn(&mut Random) -> Vec<SentFrame>;

/// A kind of sessions. Its sessions hang on its name and the seed alone, so they stay what they are
/// when another kind is added.
#[derive(Clone, Copy)]
pub struct Kind {
    pub name: &'static str,
    maker: Maker,
}

#[derive(Clone, Copy)]
enum Maker {
    Session(Generator),
    /// Sessions whose answers are judged among each other, too.
    Law(Law),
}

impl Kind {
    /// The session of a seed.
    pub fn session(self, seed: u64) -> Vec<SentFrame> {
        self.session_and_trial(seed).0
    }

    /// The session of a seed and, of a law, the trial whose commands it sends.
    pub fn session_and_trial(self, seed: u64) -> (Vec<SentFrame>, Option<Trial>) {
        let mut random = Random::of(self.name, seed);
        match self.maker {
            Maker::Session(generator) => (generator(&mut random), None),
            Maker::Law(law) => {
                let trial = (law.trial)(&mut random);
                (trial.frames(&mut random), Some(trial))
            }
        }
    }

    /// The law by which its answers are judged.
    pub fn law(self) -> Option<Law> {
        match self.maker {
            Maker::Session(_) => None,
            Maker::Law(law) => Some(law),
        }
    }
}

/// Every kind.
pub fn kinds() -> impl Iterator<Item = Kind> {
    let sessions = GENERATORS.map(|(name, generator)| (name, Maker::Session(generator)));
    let laws = LAWS.map(|(name, law)| (name, Maker::Law(law)));
    sessions.into_iter().chain(laws).map(|(name, maker)| Kind { name, maker })
}

const LAWS: [(&str, Law); 4] = [
    ("more patterns", more_patterns::LAW),
    ("rows that gain subscriptions", gains::LAW),
    ("joined requests", joins::LAW),
    ("own commands of walks", own_commands::LAW),
];

const GENERATORS: [(&str, Generator); 38] = [
    ("a table and commands", commands_over_a_table),
    ("a growing table", growing_table),
    ("a damaged table", damaged_tables),
    ("namespace lists", namespace_lists),
    ("damaged commands", damaged_commands),
    ("hostile patterns", hostile_patterns),
    ("nested values", nested_values),
    ("walks of deep trees", walks_of_deep_trees),
    ("bad frames", bad_frames),
    ("limits of tables", limits::tables),
    ("limits of stored bytes", limits::stored_bytes),
    ("limits of commands", limits::commands),
    ("limits of answers", limits::answers),
    ("limits of found", limits::walks_for_found),
    ("limits of pending", limits::walks_for_pending),
    ("limits of found and pending", limits::walks_for_both),
    ("limits of scratch", limits::walks_for_scratch),
    ("levels above mailboxes", levels_above),
    ("limits of answers with levels", limits::answers_with_levels),
    ("literals", literals::commands_with_literals),
    ("odd literals", literals::odd_commands),
    ("limits of literals", literals::limits),
    ("special uses by tree", special_uses::trees),
    ("option bytes", special_uses::option_bytes),
    ("limits of answers with CHILDINFO", limits::answers_with_childinfo),
    ("subscribed names by LSUB", lsub::subscribed_names),
    ("limits of answers with LSUB", limits::answers_with_lsub),
    ("series of edits", edit_sessions::series),
    ("edits of full tables", edit_sessions::full_tables),
    ("edits of names in pieces", edit_sessions::names_in_pieces),
    ("rows and entries around edits", edit_sessions::rows_and_entries),
    ("refusals of edits", edit_sessions::refusals),
    ("every reader", reader_sessions::every_reader),
    ("growing views", reader_sessions::growing_views),
    ("hidden parents", reader_sessions::hidden_parents),
    ("changes of what is hidden", reader_sessions::hidden_changes),
    ("edits of every reader", edit_sessions::every_reader),
    ("walks below the longest names", own_commands::walks_below_the_longest_names),
];

fn commands_over_a_table(random: &mut Random) -> Vec<SentFrame> {
    let count = random.within(0..=40);
    let rows = good_table(random, count);
    let names = names_of(&rows);
    let mut sending = Sending::over(random, &rows);
    sending.commands(24, |random| command(random, &names));
    sending.every_walk();
    sending.frames
}

/// Commands and walks between the rows.
fn growing_table(random: &mut Random) -> Vec<SentFrame> {
    let rows = good_table(random, 30);
    let names = names_of(&rows);
    let mut sending = Sending::new(random);
    for row in rows {
        sending.table(&table_bytes(&[row]));
        if sending.random.percent(60) {
            let line = command(sending.random, &names);
            sending.command(&line);
        }
        if sending.random.percent(30) {
            let option = sending.random.below(8) as u8;
            sending.walk(option);
        }
    }
    sending.frames
}

fn damaged_tables(random: &mut Random) -> Vec<SentFrame> {
    let count = random.within(0..=12);
    let rows = good_table(random, count);
    let names = names_of(&rows);
    let table = damaged_table(random, rows);
    let mut sending = Sending::new(random);
    sending.table(&table);
    sending.command_text("a LIST \"\" *");
    sending.command_text("a NAMESPACE");
    sending.commands(4, |random| command(random, &names));
    sending.every_walk();
    sending.frames
}

fn namespace_lists(random: &mut Random) -> Vec<SentFrame> {
    let rows = good_table(random, 3);
    let list = namespace_list(random);
    let mut sending = Sending::over(random, &rows);
    sending.namespaces(&list);
    for text in ["a NAMESPACE", "b namespace", "c LIST \"\" *", "d NAMESPACE ", "e NOOP", ""] {
        sending.command_text(text);
    }
    sending.walk(0);
    sending.frames
}

fn damaged_commands(random: &mut Random) -> Vec<SentFrame> {
    let rows = good_table(random, 8);
    let names = names_of(&rows);
    let mut sending = Sending::over(random, &rows);
    sending.commands(80, |random| {
        let line = command(random, &names);
        cut_to_a_line(damaged(random, line))
    });
    sending.frames
}

fn cut_to_a_line(mut line: Vec<u8>) -> Vec<u8> {
    line.truncate(MAX_LINE);
    line
}

/// Patterns that are slow to try every way, over names that nearly match them.
fn hostile_patterns(random: &mut Random) -> Vec<SentFrame> {
    let mut names: Vec<Vec<u8>> = Vec::new();
    for _ in 0..12 {
        let level = "a".repeat(random.within(1..=40));
        let levels = MAX_NAME / (level.len() + 1);
        names.push(vec![level; random.within(1..=levels.min(MAX_LEVELS))].join("/").into_bytes());
    }
    let rows = rows_named(random, names);
    let mut sending = Sending::over(random, &rows);
    for count in [1, 1, 2, 8] {
        let options = sending.random.pick(&["", " (SUBSCRIBED RECURSIVEMATCH REMOTE)"]);
        let mut line = format!("a LIST{options} \"\" (").into_bytes();
        for number in 0..count {
            line.extend_from_slice(if number == 0 { b"" } else { b" " });
            line.extend(hostile_pattern(sending.random));
        }
        line.extend_from_slice(b")\r\n");
        sending.command(&line);
    }
    sending.frames
}

/// Values of options, some as deep as the line allows.
fn nested_values(random: &mut Random) -> Vec<SentFrame> {
    let mut sending = Sending::new(random);
    sending.commands(10, |random| {
        let mut line = b"a LIST (SUBSCRIBED FOO ".to_vec();
        let depth = random.within(1..=8);
        push_value(&mut line, random, depth);
        line.extend_from_slice(b") \"\" *\r\n");
        if random.percent(40) {
            line = damaged(random, line);
        }
        cut_to_a_line(line)
    });
    for end in [") \"\" *", ") \"\" (", "", " ) \"\" *"] {
        let depth = sending.random.within(900..=1_010);
        let (open, close) = ("(".repeat(depth), ")".repeat(depth));
        sending.command_text(&format!("a LIST (FOO {open}a{close}{end}"));
        sending.command_text(&format!("a LIST \"\" * RETURN (FOO {open}{close}{end}"));
    }
    sending.command_text(&format!("a LIST (FOO {}", "(".repeat(MAX_LINE - 16)));
    sending.command_text(&format!("a LIST (FOO ({}x) \"\" *", "a ".repeat(900)));
    sending.frames
}

/// Many subscribed names, remote parents and uses, walked with every option, and the walk's own
/// commands.
fn walks_of_deep_trees(random: &mut Random) -> Vec<SentFrame> {
    let count = random.within(10..=90);
    let mut rows = good_table(random, count);
    for row in &mut rows {
        if random.percent(50) && row.flags.has(Flags::EXISTS) {
            row.flags.add(Flags::SUBSCRIBED);
        }
    }
    let names = names_of(&rows);
    let mut sending = Sending::over(random, &rows);
    sending.every_walk();
    for name in names.iter().take(10) {
        let walk = some_walk(sending.random);
        sending.command(&walk.command_below(name));
    }
    sending.frames
}

/// Bad frames among good ones; the stored rows stay.
fn bad_frames(random: &mut Random) -> Vec<SentFrame> {
    let rows = good_table(random, 4);
    let mut sending = Sending::over(random, &rows);
    for _ in 0..20 {
        match sending.random.below(4) {
            0 | 1 => {
                let text = sending.random.pick(&BAD_FRAMES);
                sending.raw(text.as_bytes());
            }
            2 => {
                let length = sending.random.within(1..=9);
                let bytes = (0..length).map(|_| sending.random.byte());
                let text: Vec<u8> = bytes.filter(|&byte| byte != b'\n').collect();
                sending.raw(&text);
            }
            _ => sending.command_text("a LIST \"\" *"),
        }
    }
    for digits in [MAX_DIGITS - 2, MAX_DIGITS, MAX_DIGITS + 1, MAX_DIGITS + 2, 3 * MAX_DIGITS] {
        sending.raw(&[b"4300".as_slice(), &b"6".repeat(digits - 4)].concat());
    }
    sending.command_text("a LIST \"\" %");
    if sending.random.percent(50) {
        let text = sending.random.pick(&[b"570000".as_slice(), b"4", b"4D0001", b"x", b"4300"]);
        sending.cut(text);
    }
    sending.frames
}

/// Empty, odd, with other characters, with other first bytes, without a reader, and walks without one
/// option.
const BAD_FRAMES: [&str; 24] = [
    "",
    "4",
    "434",
    "0x43",
    "4300 0D0A",
    "4G",
    " 43",
    "4300\r",
    "\r",
    "00",
    "41",
    "52",
    "6D",
    "57",
    "5700",
    "570000 ",
    "57FF0000",
    "4d4",
    "4E\t",
    "4D\0",
    "43",
    "5708",
    "57080000",
    "43080",
];
