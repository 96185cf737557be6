//! Sessions for W9 (document 02): commands and walks of every reader over tables of which each sees
//! another part, and what is hidden from a reader while it asks the same again.

use formats::frames::{SentFrame, ROW};
use formats::name;
use formats::readers::Readers;
use formats::rows::Flags;

use crate::commands::{command, damaged};
use crate::edits::{edit_command, SUBSCRIBE, UNSUBSCRIBE};
use crate::levels::{level_command, tree};
use crate::lsub::{lsub_command, subscriptions};
use crate::random::Random;
use crate::readers::{some_reader, veil};
use crate::sending::{Sending, MAX_SENT_LINE};
use crate::tables::{good_table, lawful_flags, names_of, table_bytes, NewRow};
use crate::walks::WALKS;

/// What shows all that a reader sees.
const SHOWING: [&str; 3] = [
    "a LIST (REMOTE) \"\" * RETURN (CHILDREN SUBSCRIBED SPECIAL-USE)\r\n",
    "a LIST (SUBSCRIBED RECURSIVEMATCH REMOTE) \"\" %\r\n",
    "a LSUB \"\" %\r\n",
];

/// LIST, LSUB, NAMESPACE and walks, each of some reader.
pub fn every_reader(random: &mut Random) -> Vec<SentFrame> {
    let count = random.within(0..=30);
    let mut rows = good_table(random, count);
    veil(random, &mut rows);
    let names = names_of(&rows);
    let mut sending = Sending::over(random, &rows);
    for _ in 0..50 {
        sending.reader = some_reader(sending.random);
        ask(&mut sending, &names);
    }
    sending.frames
}

/// The same after each row, so that rows come that some readers do not see.
pub fn growing_views(random: &mut Random) -> Vec<SentFrame> {
    let mut rows = subscriptions(random, 20);
    let reader = veil(random, &mut rows).number();
    let names = names_of(&rows);
    let mut sending = Sending::new(random);
    for row in rows {
        sending.table(&table_bytes(&[row]));
        let other = some_reader(sending.random);
        for reader in [reader, other] {
            sending.reader = reader;
            ask(&mut sending, &names);
        }
    }
    sending.frames
}

/// Levels above mailboxes, many of which are rows that a reader does not see.
pub fn hidden_parents(random: &mut Random) -> Vec<SentFrame> {
    let mut rows = tree(random);
    let mut levels: Vec<Vec<u8>> =
        rows.iter().flat_map(|row| name::ancestors(&row.name)).map(<[u8]>::to_vec).collect();
    levels.sort();
    levels.dedup();
    let has_row = |name: &Vec<u8>| rows.iter().any(|row| row.name == *name);
    let without: Vec<Vec<u8>> = levels.iter().filter(|name| !has_row(name)).cloned().collect();
    for name in without {
        if random.percent(50) {
            let mut flags = lawful_flags(random);
            flags.remove(Flags::NO_INFERIORS);
            rows.push(NewRow::new(flags, name));
        }
    }
    rows.sort_by(|one, other| one.name.cmp(&other.name));
    let reader = veil(random, &mut rows);
    for row in rows.iter_mut().filter(|row| levels.contains(&row.name)) {
        if random.percent(70) {
            row.readers.remove(reader);
        }
    }
    let reader = reader.number();
    let mut sending = Sending::over(random, &rows);
    for number in 0..40 {
        sending.reader = if number < 20 { reader } else { some_reader(sending.random) };
        let line = level_command(sending.random, &levels);
        sending.command(&line);
    }
    sending.reader = reader;
    sending.every_walk();
    sending.frames
}

/// A reader asks the same again and again. Between, rows are added and edited that it does not see.
pub fn hidden_changes(random: &mut Random) -> Vec<SentFrame> {
    let count = random.within(4..=20);
    let mut rows = subscriptions(random, count);
    let reader = veil(random, &mut rows);
    let names = names_of(&rows);
    let mut questions = SHOWING.map(|line| line.as_bytes().to_vec()).to_vec();
    for _ in 0..4 {
        questions.push(command(random, &names));
        questions.push(lsub_command(random, &names));
    }
    let mut sending = Sending::over(random, &rows);
    let ask_all = |sending: &mut Sending| {
        sending.reader = reader.number();
        questions.iter().for_each(|line| sending.command(line));
        WALKS.iter().for_each(|walk| sending.walk(walk.option));
        sending.reader = 0;
    };
    ask_all(&mut sending);
    for number in 0..3 {
        // After all names of the table but those that begin with "~".
        let name = format!("~~{number}{}", sending.random.pick(&["", "/x", "/x/y"])).into_bytes();
        if rows.last().is_some_and(|last| last.name < name) {
            let flags = *sending.random.pick(&[&Flags::SUBSCRIBED, &Flags::EXISTS]);
            let mut readers = Readers::ALL;
            readers.remove(reader);
            let row = NewRow { flags, readers, name };
            sending.frame(ROW, &table_bytes(std::slice::from_ref(&row)));
            rows.push(row);
        }
    }
    ask_all(&mut sending);
    let hidden: Vec<&NewRow> = rows.iter().filter(|row| !row.readers.has(reader)).collect();
    for _ in 0..3 {
        for row in hidden.iter().filter(|row| row.flags.has(Flags::EXISTS)) {
            let word = sending.random.pick(&[SUBSCRIBE, UNSUBSCRIBE]);
            let line = edit_command(sending.random, word, &row.name);
            sending.command(&line);
        }
        ask_all(&mut sending);
    }
    // A row 0002 goes. Were it there again, all readers would see it.
    for row in hidden.iter().filter(|row| row.flags == Flags::SUBSCRIBED) {
        let line = edit_command(sending.random, UNSUBSCRIBE, &row.name);
        sending.command(&line);
    }
    ask_all(&mut sending);
    sending.frames
}

/// A command, damaged now and then, or a walk.
fn ask(sending: &mut Sending, names: &[Vec<u8>]) {
    let random = &mut *sending.random;
    let line = match random.below(10) {
        0..4 => command(random, names),
        4..7 => lsub_command(random, names),
        7 => {
            let line = command(random, names);
            damaged(random, line)
        }
        _ => {
            let option = random.below(9) as u8;
            return sending.walk(option);
        }
    };
    sending.command(&line[..line.len().min(MAX_SENT_LINE)]);
}
