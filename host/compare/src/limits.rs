//! Sessions at both sides of the limits of document 01.

use std::collections::BTreeSet;

use formats::frames::{SentFrame, ENTRY, ROW};
use formats::name;
use formats::name::{MAX_LEVELS, MAX_NAME};
use formats::rows::{Flags, MAX_ROWS, ROW_HEAD};
use second::command::{MAX_CANONICAL, MAX_PATTERNS};
use second::frames::{
    ANSWER_ROOM, FOUND_ROOM, NAMESPACES_ROOM, PENDING_ROOM, SCRATCH_ROOM, TABLE_ROOM,
};
use second::shape::MAX_LINE;
use second::{answer_reading, Table};

use crate::random::Random;
use crate::sending::Sending;
use crate::tables::{table_bytes, NewRow};
use crate::walks::{some_walk, Walk};

/// Existing and subscribed.
const SUBSCRIBED: Flags = Flags::EXISTS.with(Flags::SUBSCRIBED);
/// Existing and remote.
const REMOTE: Flags = Flags::EXISTS.with(Flags::REMOTE);
/// Longer than the answers whose length is measured.
const AMPLE_ROOM: usize = 65_536;

/// Rows, name lengths and levels, each at its limit or one over it.
pub fn tables(random: &mut Random) -> Vec<SentFrame> {
    let over = random.below(2);
    let rows = match random.below(3) {
        0 => numbered_rows(MAX_ROWS + over, 5, Flags::EXISTS),
        1 => vec![row_named("n".repeat(MAX_NAME + over), SUBSCRIBED)],
        _ => vec![row_named(vec!["l"; MAX_LEVELS + over].join("/"), SUBSCRIBED)],
    };
    let mut sending = Sending::over(random, &rows);
    for text in ["a NAMESPACE", "a LIST \"\" *", "a LIST \"\" 00*", "a LIST \"\" (l/% n%)"] {
        sending.command_text(text);
    }
    sending.every_walk();
    sending.frames
}

/// Rows and entries that fill their room, or all but a few bytes of it, and some more.
pub fn stored_bytes(random: &mut Random) -> Vec<SentFrame> {
    let short = random.pick(&[&0, &1, &2, &40]);
    let mut sending = Sending::new(random);
    if sending.random.percent(60) {
        let mut rows = numbered_rows(MAX_ROWS, TABLE_ROOM / MAX_ROWS - ROW_HEAD, SUBSCRIBED);
        if let Some(last) = rows.last_mut() {
            last.name.truncate(last.name.len().saturating_sub(*short));
        }
        sending.table(&table_bytes(&rows));
        sending.command_text("a NAMESPACE");
        after_filling(&mut sending, ROW);
    } else {
        let entries = [[2, 61].as_slice(), &[b'p'; 61], b"/"].concat();
        sending.namespaces(&entries.repeat(NAMESPACES_ROOM / entries.len())[*short..]);
        after_filling(&mut sending, ENTRY);
    }
    sending.command_text("a LIST \"\" (0% 51%)");
    sending.walk(0);
    sending.frames
}

/// Frames of one first byte that fit in the room left, or do not.
fn after_filling(sending: &mut Sending, first: u8) {
    for length in [41, 3, 2, 0, 1, 1] {
        sending.frame(first, &vec![0; length]);
        sending.command_text("a NAMESPACE");
    }
}

/// Numbers of patterns, canonical lengths and line lengths, each at its limit or one over it.
pub fn commands(random: &mut Random) -> Vec<SentFrame> {
    let mut sending = Sending::over(random, &[row_named("x".to_string(), SUBSCRIBED)]);
    for over in 0..2 {
        let empty = sending.random.below(MAX_PATTERNS);
        let mut patterns = vec!["x"; MAX_PATTERNS + over];
        patterns[..empty].fill("\"\"");
        sending.command_text(&format!("a LIST \"\" ({})", patterns.join(" ")));

        let length = MAX_CANONICAL + over;
        let reference = sending.random.below(length);
        let (r, p) = ("r".repeat(reference), "%".repeat(length - reference));
        let quoted = "\\\\".repeat(length - reference);
        sending.command_text(&format!("a LIST \"{r}\" {p}"));
        sending.command_text(&format!("a LIST \"{r}\" (\"\" \"{quoted}\")"));
        sending.command_text(&format!("a LIST \"{r}{p}\" (\"\" \"\")"));
        sending.command_text(&format!("a LIST \"{r}{p}x\" \"\""));

        for (before, filler, behind) in [
            ("", "t", " LIST \"\" *"),
            ("", "t", " NAMESPACE"),
            ("a LIST \"", "r", "\" \"\""),
            ("a LIST (FOO (", "v", ")) \"\" *"),
            ("a LIST (FOO) \"\" * RETURN (", "O", ")"),
        ] {
            let filled = MAX_LINE + over - "\r\n".len() - before.len() - behind.len();
            sending.command_text(&format!("{before}{}{behind}", filler.repeat(filled)));
        }
    }
    sending.frames
}

/// Answers that fill their buffer, or are a byte longer or shorter.
pub fn answers(random: &mut Random) -> Vec<SentFrame> {
    let flags = if random.percent(50) { Flags::EXISTS } else { SUBSCRIBED };
    let rest = random.pick(&[" LIST \"\" *", " LIST \"\" % RETURN (SUBSCRIBED CHILDREN)"]);
    let rows = numbered_rows(random.within(200..=270), 10, flags);
    answers_of(random, rows, rest, &[])
}

/// The same for the lines of levels: each row lies below a level of its own that has no row, and
/// the pattern lists these levels alone. Without REMOTE the levels of remote rows have no line.
pub fn answers_with_levels(random: &mut Random) -> Vec<SentFrame> {
    let flags = random.pick(&[&Flags::EXISTS, &REMOTE]);
    let rest = random.pick(&[" LIST (REMOTE) \"\" %", " LIST (REMOTE) \"\" (x* %%) RETURN ()"]);
    let mut rows = numbered_rows(random.within(200..=270), 10, *flags);
    for row in &mut rows {
        row.name.extend_from_slice(b"/c");
    }
    answers_of(random, rows, rest, &[" LIST \"\" %", " LIST \"\" % RETURN (CHILDREN)"])
}

/// The same for lines with CHILDINFO: each row lies below a level of its own, and meets the
/// criteria. The lines differ by what is selected.
pub fn answers_with_childinfo(random: &mut Random) -> Vec<SentFrame> {
    const SPARE: usize = 2_500;
    let rest = |walk: &Walk| format!(" LIST ({}) \"\" %", walk.selection);
    let (walk, other) = (some_walk(random), some_walk(random));
    let command = format!("t{}\r\n", rest(walk));
    let rows = rows_filling(
        ANSWER_ROOM - SPARE,
        |count| rows_around("", &numbered_rows(count, 10, walk.flags), "/c"),
        |rows| answer_length(&table_bytes(rows), &command),
    );
    answers_of(random, rows, &rest(walk), &[&rest(other)])
}

/// The same for LSUB: lines of subscribed names, or of the levels above them with `\Noselect`.
pub fn answers_with_lsub(random: &mut Random) -> Vec<SentFrame> {
    const FLAGS: [Flags; 3] = [SUBSCRIBED, Flags::SUBSCRIBED, SUBSCRIBED.with(Flags::REMOTE)];
    let (below, rest, other) = *random.pick(&[
        &("", " LSUB \"\" *", " LSUB \"\" %"),
        &("", " LSUB \"\" *%", " LIST (SUBSCRIBED) \"\" *"),
        &("/c", " LSUB \"\" %", " LSUB \"\" *"),
        &("/c", " LSUB \"\" %%", " LIST (SUBSCRIBED RECURSIVEMATCH) \"\" %"),
    ]);
    let flags = FLAGS[random.below(FLAGS.len())];
    let rows = numbered_rows(random.within(200..=270), 10, flags);
    answers_of(random, rows_around("", &rows, below), rest, &[other])
}

/// Commands whose answers fill the buffer, or are a byte longer or shorter; the tag makes the
/// length. Under the same tags then others.
fn answers_of(
    random: &mut Random,
    mut rows: Vec<NewRow>,
    rest: &str,
    others: &[&str],
) -> Vec<SentFrame> {
    let shortest = format!("t{rest}\r\n");
    let start = random.within(ANSWER_ROOM - 1_900..=ANSWER_ROOM - 100);
    stretch(&mut rows, start, |rows| answer_length(&table_bytes(rows), &shortest));
    let table = table_bytes(&rows);
    let length = answer_length(&table, &shortest);
    let mut sending = Sending::new(random);
    sending.table(&table);
    for target in [ANSWER_ROOM - 1, ANSWER_ROOM, ANSWER_ROOM + 1] {
        let tag = "t".repeat(1 + target - length);
        for rest in [&[rest], others].concat() {
            sending.command_text(&format!("{tag}{rest}"));
        }
    }
    sending.frames
}

/// Walks whose finds fill found, or need a byte more: few long names.
pub fn walks_for_found(random: &mut Random) -> Vec<SentFrame> {
    let target = FOUND_ROOM + random.below(2);
    let above = random.pick(&["", "P/"]);
    let flags = some_walk(random).flags;
    let mut rows = rows_around(above, &numbered_rows(41, 150, flags), "");
    stretch(&mut rows, target, |rows| rows.iter().map(|row| 1 + row.name.len()).sum());
    walks_of(random, &rows)
}

/// Walks whose pending names fill pending, or need a byte more.
pub fn walks_for_pending(random: &mut Random) -> Vec<SentFrame> {
    let target = PENDING_ROOM + random.below(2);
    let mut rows = chains(random);
    stretch(&mut rows, target, pending_length);
    walks_of(random, &rows)
}

/// Every level meets the criteria: a line is a find and pending, and found and pending fill
/// together.
pub fn walks_for_both(random: &mut Random) -> Vec<SentFrame> {
    let level = "l".repeat(random.within(8..=11));
    let flags = some_walk(random).flags;
    let chain = |first: usize| {
        let names = (1..=MAX_LEVELS).map(|depth| vec![level.as_str(); depth].join("/"));
        names.map(|name| row_named(format!("{first}{name}"), flags)).collect::<Vec<_>>()
    };
    let rows: Vec<NewRow> = (0..6).flat_map(chain).collect();
    walks_of(random, &rows)
}

/// Walks with an answer that fills scratch, or is a byte longer: many short names, or as many
/// levels with CHILDINFO.
pub fn walks_for_scratch(random: &mut Random) -> Vec<SentFrame> {
    let target = SCRATCH_ROOM + random.below(2);
    let spare = random.within(100..=1_500);
    let walk = some_walk(random);
    let (above, below) = (random.pick(&["", "P/"]), random.pick(&["", "/c"]));
    let command = format!("w LIST ({}) \"{above}\" \"%\"\r\n", walk.selection);
    let measure = |rows: &[NewRow]| answer_length(&table_bytes(rows), &command);
    let rows_of = |count| rows_around(above, &numbered_rows(count, 12, walk.flags), below);
    let mut rows = rows_filling(target - spare, rows_of, measure);
    stretch(&mut rows, target, measure);
    walks_of(random, &rows)
}

fn walks_of(random: &mut Random, rows: &[NewRow]) -> Vec<SentFrame> {
    let mut sending = Sending::over(random, rows);
    sending.every_walk();
    sending.frames
}

/// Names that meet the criteria at the end of many levels, and behind them names with one level
/// above. Their pending names leave some room for the latter to be stretched.
fn chains(random: &mut Random) -> Vec<NewRow> {
    let mut rows = Vec::new();
    let flags = some_walk(random).flags;
    while pending_length(&rows) < PENDING_ROOM - 3_000 {
        let levels = random.within(8..=MAX_LEVELS);
        let chain = vec!["chain"; levels].join("/");
        rows.push(row_named(format!("{:03}{chain}", rows.len()), flags));
    }
    for number in rows.len()..rows.len() + 17 {
        rows.push(row_named(format!("{number:03}/c"), flags));
    }
    rows
}

/// As many rows as a measure that grows alike with each row lets stand below its target.
fn rows_filling(
    target: usize,
    rows_of: impl Fn(usize) -> Vec<NewRow>,
    measure: impl Fn(&[NewRow]) -> usize,
) -> Vec<NewRow> {
    let one = measure(&rows_of(1));
    let another = measure(&rows_of(2)) - one;
    rows_of(1 + (target - one) / another)
}

/// Lengthens first levels, from the last row on, until a measure that grows with each byte
/// reaches its target. Rows are numbered, so they still ascend.
fn stretch(rows: &mut [NewRow], target: usize, measure: impl Fn(&[NewRow]) -> usize) {
    for at in (0..rows.len()).rev() {
        let missing = target.saturating_sub(measure(rows));
        if missing == 0 {
            return;
        }
        let name = &mut rows[at].name;
        let added = missing.min(MAX_NAME - name.len());
        let number_end = name.iter().position(u8::is_ascii_digit).unwrap_or(0) + 3;
        name.splice(number_end..number_end, vec![b'x'; added]);
    }
}

fn pending_length(rows: &[NewRow]) -> usize {
    let ancestors: BTreeSet<&[u8]> =
        rows.iter().flat_map(|row| name::ancestors(&row.name)).collect();
    ancestors.iter().map(|name| 1 + name.len()).sum()
}

/// The length of an answer that is not refused.
fn answer_length(table: &[u8], line: &str) -> usize {
    answer_reading(0, Table::Packed(table), &[], line.as_bytes(), &mut vec![0; AMPLE_ROOM])
        .unwrap_or(0)
}

/// Rows of one length, ascending: a number of three digits and filling.
fn numbered_rows(count: usize, length: usize, flags: Flags) -> Vec<NewRow> {
    let name = |number| format!("{number:03}{}", "n".repeat(length - 3));
    (0..count).map(|number| NewRow::new(flags, name(number).into_bytes())).collect()
}

/// The rows with levels before and behind their names.
fn rows_around(above: &str, rows: &[NewRow], below: &str) -> Vec<NewRow> {
    let name = |row: &NewRow| [above.as_bytes(), &row.name, below.as_bytes()].concat();
    rows.iter().map(|row| NewRow::new(row.flags, name(row))).collect()
}

fn row_named(name: String, flags: Flags) -> NewRow {
    NewRow::new(flags, name.into_bytes())
}
