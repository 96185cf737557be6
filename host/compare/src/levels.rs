//! Sessions for W1 (document 02): levels without a mailbox, and patterns that end in "%" or do not.

use formats::frames::SentFrame;
use formats::name::{self, INBOX};
use formats::quoted::push_quoted;
use formats::rows::Flags;

use crate::random::Random;
use crate::sending::Sending;
use crate::tables::{level, NewRow};

/// Most of them select nothing but REMOTE, as W1 asks.
const SELECTIONS: [&str; 12] = [
    "",
    "",
    "",
    " ()",
    " (REMOTE)",
    " (REMOTE)",
    " (REMOTE)",
    " (SPECIAL-USE REMOTE)",
    " (SPECIAL-USE)",
    " (SUBSCRIBED REMOTE)",
    " (SUBSCRIBED)",
    " (SUBSCRIBED RECURSIVEMATCH REMOTE)",
];
const RETURNS: [&str; 6] =
    ["", "", " RETURN ()", " RETURN (CHILDREN)", " RETURN (SUBSCRIBED)", " RETURN (SPECIAL-USE)"];
/// Patterns that match levels wherever they stand; half of them end in "%".
const PATTERNS: [&[u8]; 14] = [
    b"%", b"%%", b"*%", b"in%", b"inbox%", b"%/%", b"*/%", b"*", b"%*", b"%/*", b"inbox", b"in*",
    b"%x", b"%%*",
];

/// Mailboxes far below the top level, and commands that ask for the levels above them.
pub fn levels_above(random: &mut Random) -> Vec<SentFrame> {
    let rows = tree(random);
    let levels: Vec<Vec<u8>> =
        rows.iter().flat_map(|row| name::ancestors(&row.name)).map(<[u8]>::to_vec).collect();
    let mut sending = Sending::over(random, &rows);
    sending.commands(30, |random| level_command(random, &levels));
    sending.every_walk();
    sending.frames
}

/// Rows of two to four levels. Of the levels above them most have no row, some a row 0002, a few
/// a mailbox. Rows below one level are remote, 0002 or local, so some levels have no local
/// mailbox below them, or none at all.
pub fn tree(random: &mut Random) -> Vec<NewRow> {
    let mut rows: Vec<NewRow> = Vec::new();
    for _ in 0..random.within(1..=9) {
        let mut name = if random.percent(25) { INBOX.to_vec() } else { first_level(random) };
        for _ in 0..random.within(1..=3) {
            match random.below(10) {
                0 | 1 => rows.push(NewRow::new(Flags::SUBSCRIBED, name.clone())),
                2 => rows.push(NewRow::new(mailbox(random), name.clone())),
                _ => {}
            }
            name = [name.as_slice(), b"/", &level(random)].concat();
        }
        let flags = if random.percent(20) { Flags::SUBSCRIBED } else { mailbox(random) };
        rows.push(NewRow::new(flags, name));
    }
    rows.sort_by(|one, other| one.name.cmp(&other.name));
    rows.dedup_by(|one, other| one.name == other.name);
    rows
}

/// Any level but a spelling of INBOX, which the table would not pass.
fn first_level(random: &mut Random) -> Vec<u8> {
    let level = level(random);
    if level.eq_ignore_ascii_case(INBOX) {
        INBOX.to_vec()
    } else {
        level
    }
}

/// The flags of a mailbox that may have others below it.
fn mailbox(random: &mut Random) -> Flags {
    let mut flags = Flags::EXISTS;
    for (flag, percent) in [(Flags::REMOTE, 40), (Flags::SUBSCRIBED, 30), (Flags::SENT, 30)] {
        if random.percent(percent) {
            flags.add(flag);
        }
    }
    flags
}

/// A LIST with one pattern, or with several of which one ends in "%".
pub fn level_command(random: &mut Random, levels: &[Vec<u8>]) -> Vec<u8> {
    let mut line = format!("a LIST{} ", random.pick(&SELECTIONS)).into_bytes();
    let first = pattern(random, levels);
    let at = if random.percent(50) { 0 } else { random.below(first.len() + 1) };
    let (reference, behind) = first.split_at(at);
    push_quoted(&mut line, reference);
    line.push(b' ');
    if random.percent(60) {
        push_quoted(&mut line, behind);
    } else {
        line.push(b'(');
        push_quoted(&mut line, behind);
        for _ in 0..random.within(1..=3) {
            line.push(b' ');
            let other = pattern(random, levels);
            let other = other.strip_prefix(reference).unwrap_or(&other);
            push_quoted(&mut line, other.strip_suffix(b"%").unwrap_or(other));
        }
        line.push(b')');
    }
    line.extend_from_slice(random.pick(&RETURNS).as_bytes());
    line.extend_from_slice(b"\r\n");
    line
}

/// A pattern that matches some level, most often, with a wildcard at its end, within it, or
/// nowhere.
fn pattern(random: &mut Random, levels: &[Vec<u8>]) -> Vec<u8> {
    if levels.is_empty() || random.percent(35) {
        return random.pick(&PATTERNS).to_vec();
    }
    let mut pattern = levels[random.below(levels.len())].clone();
    if random.percent(40) {
        let from = random.below(pattern.len());
        let to = pattern.len().min(from + random.below(4));
        pattern.splice(from..to, random.pick(&[b"%".as_slice(), b"*"]).to_vec());
    }
    if random.percent(30) {
        pattern.truncate(random.below(pattern.len() + 1));
    }
    if random.percent(20) {
        pattern.make_ascii_lowercase();
    }
    pattern.extend_from_slice(random.pick(&[b"%".as_slice(), b"%", b"%%", b"*%", b"*", b""]));
    pattern
}
