//! SUBSCRIBE and UNSUBSCRIBE (document 02, W6): names to edit, commands, and the free runs of an area.

use std::ops::Range;

use formats::name::{INBOX, MAX_LEVELS, MAX_NAME};
use formats::rows::Flags;
use second::Record;

use crate::commands::{damaged, push_in_some_case, tag_and_space};
use crate::damage::odd_name;
use crate::random::Random;
use crate::records::Layout;
use crate::strings::{push_literal, push_string};
use crate::tables::level;

/// What makes a neighbour of a name: one that sorts beside it, or lies below it.
const ENDS: [&[u8]; 9] = [b"/x", b"/x", b"/x/y", b"-x", b" ", b"!", b"0", b".", b"/Foo"];
/// Lengths on both sides of what a name may have, and of what a pattern may.
const LENGTHS: [usize; 7] = [MAX_NAME - 1, MAX_NAME, MAX_NAME + 1, 255, 256, 1_024, 1];
/// Names that no table has.
const UNLAWFUL: [&[u8]; 12] = [
    b"",
    b"/",
    b"/a",
    b"a/",
    b"a//b",
    b"a%",
    b"*",
    b"a\x7F",
    b"\x80",
    b"\r\n",
    b"inbox/",
    b"Inbox//x",
];

/// The two words.
pub const SUBSCRIBE: &str = "SUBSCRIBE";
pub const UNSUBSCRIBE: &str = "UNSUBSCRIBE";

/// Of some names, so many at their end are edited as often as all of them.
const RECENT: usize = 6;

/// A name to edit: mostly one of some names or a neighbour of it, else INBOX in some case of letters,
/// a new name, one at a limit, or one that is unlawful.
pub fn name_to_edit(random: &mut Random, names: &[Vec<u8>]) -> Vec<u8> {
    let known = |random: &mut Random| {
        let recent = if random.percent(50) { names.len().saturating_sub(RECENT) } else { 0 };
        names[random.within(recent..=names.len() - 1)].clone()
    };
    match random.below(20) {
        0..10 if !names.is_empty() => known(random),
        10..13 if !names.is_empty() => {
            let name = known(random);
            neighbour(random, name)
        }
        13 => unlawful_name(random, b"Foo"),
        14 => vec![b"l".as_slice(); random.within(MAX_LEVELS - 1..=MAX_LEVELS + 1)].join(&b'/'),
        15 => vec![b'n'; LENGTHS[random.below(LENGTHS.len())]],
        16 | 17 => inbox_name(random),
        _ => new_name(random),
    }
}

/// A lawful name of so many bytes, from 1 to 200, that differs from most others.
pub fn name_of_length(random: &mut Random, length: usize) -> Vec<u8> {
    let byte = |_| b"abcdefghijklmnopqrstuvwxyzABCDEFGHIJKLMNOPQRSTUVWXYZ"[random.below(52)];
    (0..length).map(byte).collect()
}

/// INBOX in some case of letters, alone, with levels below it, or nearly INBOX.
pub fn inbox_name(random: &mut Random) -> Vec<u8> {
    let mut name = Vec::new();
    for byte in INBOX {
        name.push(if random.percent(50) { byte.to_ascii_lowercase() } else { *byte });
    }
    let end = random.pick(&[b"".as_slice(), b"", b"", b"/x", b"/inbox", b"/", b"x", b"-"]);
    [name.as_slice(), end].concat()
}

/// A name that no table has, or that may be one.
pub fn unlawful_name(random: &mut Random, name: &[u8]) -> Vec<u8> {
    match random.below(3) {
        0 => odd_name(random, name),
        _ => random.pick(&UNLAWFUL).to_vec(),
    }
}

/// A SUBSCRIBE or UNSUBSCRIBE of a name, on the grammar, with its CR LF. A name that no quoted string
/// may hold is a literal.
pub fn edit_command(random: &mut Random, word: &str, name: &[u8]) -> Vec<u8> {
    let mut line = tag_and_space(random);
    push_in_some_case(&mut line, random, word.as_bytes());
    line.push(b' ');
    if name.iter().all(|byte| byte.is_ascii() && !b"\0\r\n".contains(byte)) {
        push_string(&mut line, random, name, b"");
    } else {
        push_literal(&mut line, random, name);
    }
    line.extend_from_slice(b"\r\n");
    line
}

/// An edit of one of some names, or of a row of the table, now and then damaged. The name joins them,
/// so that later edits meet it again.
pub fn some_edit(random: &mut Random, names: &mut Vec<Vec<u8>>, table: &Layout) -> Vec<u8> {
    let word = random.pick(&[SUBSCRIBE, UNSUBSCRIBE]);
    let (word, name) = match random.below(20) {
        0..3 => (UNSUBSCRIBE, some_row(random, table, |flags| flags == Flags::SUBSCRIBED)),
        3 => (SUBSCRIBE, name_below_no_inferiors(random, table)),
        4..7 => (word, some_row(random, table, |flags| flags.has(Flags::EXISTS))),
        _ => (word, None),
    };
    let name = name.unwrap_or_else(|| name_to_edit(random, names));
    let line = edit_command(random, word, &name);
    if random.percent(60) {
        names.push(name);
    }
    if random.percent(5) {
        return damaged(random, line);
    }
    line
}

/// A name below a row with no inferiors, by one level or by more, or beside it.
fn name_below_no_inferiors(random: &mut Random, table: &Layout) -> Option<Vec<u8>> {
    let row = some_row(random, table, |flags| flags.has(Flags::NO_INFERIORS))?;
    Some(below_or_beside(random, &row))
}

/// A name below another, by one to three levels, or beside it: one that only begins with it.
pub fn below_or_beside(random: &mut Random, name: &[u8]) -> Vec<u8> {
    let end = random.pick(&[b"/x".as_slice(), b"/x", b"/x/y", b"/x/y/z", b"-x", b"x/y", b" "]);
    [name, end].concat()
}

/// The name of some row with such flags, of a table that passes.
pub fn some_row(
    random: &mut Random,
    Layout { records, count, area, .. }: &Layout,
    is_such: impl Fn(Flags) -> bool,
) -> Option<Vec<u8>> {
    let is_meant = |record: &&Record| is_such(Flags::from_bits(record.flags));
    let rows: Vec<&Record> = records[..*count].iter().filter(is_meant).collect();
    let row = rows.get(random.below(rows.len().max(1)))?;
    Some(area[row.place()].to_vec())
}

/// The runs of bytes that no row of a table that passes uses.
pub fn free_runs(Layout { records, count, area, .. }: &Layout) -> Vec<Range<usize>> {
    let mut used = vec![false; area.len()];
    records[..*count].iter().for_each(|record| used[record.place()].fill(true));
    let mut runs: Vec<Range<usize>> = Vec::new();
    for at in (0..area.len()).filter(|&at| !used[at]) {
        match runs.last_mut() {
            Some(run) if run.end == at => run.end += 1,
            _ => runs.push(at..at + 1),
        }
    }
    runs
}

/// The length of a name that just fits into some free run, or does not.
pub fn length_near_a_run(random: &mut Random, layout: &Layout) -> usize {
    let runs = free_runs(layout);
    let length = if runs.is_empty() { 1 } else { runs[random.below(runs.len())].len() };
    (length + random.below(3)).saturating_sub(1).clamp(1, MAX_NAME)
}

fn neighbour(random: &mut Random, mut name: Vec<u8>) -> Vec<u8> {
    match random.below(4) {
        0 => drop(name.pop()),
        1 => name.make_ascii_lowercase(),
        _ => name.extend_from_slice(random.pick(&ENDS)),
    }
    name
}

fn new_name(random: &mut Random) -> Vec<u8> {
    let mut name = level(random);
    while random.percent(30) {
        name.push(b'/');
        name.extend(level(random));
    }
    name
}
