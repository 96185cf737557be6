//! Sessions for W3 (document 02): special uses by tree, RECURSIVEMATCH beside any of the other
//! selection options, and every option byte.

use formats::frames::SentFrame;
use formats::quoted::push_quoted;
use formats::rows::Flags;

use crate::commands::pattern;
use crate::random::Random;
use crate::sending::Sending;
use crate::tables::{good_table, names_of, NewRow};
use crate::walks::WALKS;

/// The selection options, and in how many of a hundred commands each stands.
const SELECTION: [(&str, usize); 4] =
    [("RECURSIVEMATCH", 85), ("SPECIAL-USE", 60), ("SUBSCRIBED", 40), ("REMOTE", 40)];
const RETURNS: [&str; 6] = [
    "",
    "",
    " RETURN ()",
    " RETURN (SPECIAL-USE)",
    " RETURN (SUBSCRIBED CHILDREN)",
    " RETURN (CHILDREN SPECIAL-USE SUBSCRIBED)",
];
const USES: [Flags; 7] = [
    Flags::ALL,
    Flags::ARCHIVE,
    Flags::DRAFTS,
    Flags::FLAGGED,
    Flags::JUNK,
    Flags::SENT,
    Flags::TRASH,
];

/// Commands over a tree with uses, every walk of it, and commands as walks send them.
pub fn trees(random: &mut Random) -> Vec<SentFrame> {
    let count = random.within(1..=50);
    let rows = tree(random, count);
    let names = names_of(&rows);
    let mut sending = Sending::over(random, &rows);
    sending.commands(30, |random| command(random, &names));
    sending.every_walk();
    for walk in &WALKS {
        let below = &names[sending.random.below(names.len())];
        sending.command(&walk.command_below(below));
    }
    sending.frames
}

/// Walks with all 256 option bytes.
pub fn option_bytes(random: &mut Random) -> Vec<SentFrame> {
    let count = random.within(0..=12);
    let rows = tree(random, count);
    let mut sending = Sending::over(random, &rows);
    for option in 0..=u8::MAX {
        sending.walk(option);
    }
    sending.frames
}

/// A table with uses on every level, on remote rows, on unsubscribed ones and on parents.
fn tree(random: &mut Random, count: usize) -> Vec<NewRow> {
    let mut rows = good_table(random, count);
    for row in rows.iter_mut().filter(|row| row.flags.has(Flags::EXISTS)) {
        row.flags.remove(Flags::USES);
        if random.percent(40) {
            row.flags.add(USES[random.below(USES.len())]);
        }
        if random.percent(10) {
            row.flags.add(USES[random.below(USES.len())]);
        }
    }
    rows
}

/// A LIST with selection options in any order, and patterns for one level, for all, or for some
/// names.
fn command(random: &mut Random, names: &[Vec<u8>]) -> Vec<u8> {
    let mut line = format!("a LIST ({}) \"\" (", selection(random)).into_bytes();
    for number in 0..random.within(1..=3) {
        if number > 0 {
            line.push(b' ');
        }
        let name = &names[random.below(names.len())];
        let canonical = match random.below(6) {
            0 | 1 => b"%".to_vec(),
            2 => b"*".to_vec(),
            3 => [name.as_slice(), b"/%"].concat(),
            4 => name.clone(),
            _ => pattern(random, names),
        };
        push_quoted(&mut line, &canonical);
    }
    line.push(b')');
    line.extend_from_slice(random.pick(&RETURNS).as_bytes());
    line.extend_from_slice(b"\r\n");
    line
}

fn selection(random: &mut Random) -> String {
    let mut options = Vec::new();
    for (option, percent) in SELECTION {
        if random.percent(percent) {
            let place = random.below(options.len() + 1);
            options.insert(place, option);
        }
    }
    if !options.is_empty() && random.percent(10) {
        options.push(options[random.below(options.len())]);
    }
    options.join(" ")
}
