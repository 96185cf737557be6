//! Sessions for W6 (document 02): series of edits with LIST, LSUB and walks between them, tables without
//! room, names in pieces, rows and entries around edits, and every refusal.

use formats::frames::{SentFrame, ENTRY, ROW};
use formats::name::MAX_NAME;
use formats::readers::{Readers, MAX_READER};
use formats::rows::{Flags, Row, MAX_ROWS, ROW_HEAD};
use second::frames::{Program, TABLE_ROOM};
use second::Store;

use crate::commands::{command, damaged};
use crate::damage::{damaged_table, namespace_list};
use crate::edits::{
    below_or_beside, edit_command, length_near_a_run, name_of_length, name_to_edit, some_edit,
    unlawful_name, SUBSCRIBE, UNSUBSCRIBE,
};
use crate::lsub::{lsub_command, subscriptions};
use crate::random::Random;
use crate::readers::{some_reader, veil};
use crate::sending::{Sending, MAX_PIECE, MAX_SENT_LINE};
use crate::tables::{good_table, names_of, table_bytes, NewRow};

/// What shows the rows and the subscriptions that edits have left.
const SHOWING: [&str; 3] =
    ["a LIST (REMOTE) \"\" * RETURN (SUBSCRIBED)", "a LSUB \"\" *", "a LSUB \"\" %"];

/// A session under way, what the program has stored by then, and the names that edits go for.
struct Editing<'r> {
    sending: Sending<'r>,
    program: Program,
    /// How many of the frames the program has had.
    followed: usize,
    names: Vec<Vec<u8>>,
}

/// Edits of the rows of a table and of names beside them, among other commands.
pub fn series(random: &mut Random) -> Vec<SentFrame> {
    let count = random.within(0..=30);
    let rows = subscriptions(random, count);
    let mut editing = Editing::of(random, &rows);
    for _ in 0..60 {
        match editing.sending.random.below(20) {
            0..14 => editing.edit(),
            other => editing.read(other % 3),
        }
    }
    editing.show();
    editing.sending.every_walk();
    editing.sending.frames
}

/// Tables with 512 rows, or nearly so: insertions and removals anywhere.
pub fn full_tables(random: &mut Random) -> Vec<SentFrame> {
    let length = random.within(4..=28);
    let count = random.within(MAX_ROWS - 4..=MAX_ROWS);
    let row = |number| {
        let flags = if random.percent(50) { Flags::SUBSCRIBED } else { Flags::EXISTS };
        numbered_row(number, length, flags)
    };
    let rows: Vec<NewRow> = (0..count).map(row).collect();
    let mut editing = Editing::of(random, &rows);
    for _ in 0..60 {
        if editing.sending.random.percent(50) {
            editing.edit();
        } else {
            let name = name_of_length(editing.sending.random, 5);
            let line = edit_command(editing.sending.random, SUBSCRIBE, &name);
            editing.command(&line);
        }
        if editing.sending.random.percent(20) {
            let digit = editing.sending.random.below(6);
            editing.sending.command_text(&format!("a LSUB \"\" {digit}*"));
        }
    }
    editing.sending.command_text("a LSUB \"\" 0*");
    editing.sending.walk(1);
    editing.sending.frames
}

/// All name bytes used but for some runs, into which the names of edits just fit or do not; and rows
/// after them.
pub fn names_in_pieces(random: &mut Random) -> Vec<SentFrame> {
    let rows = filling_rows(random);
    let mut editing = Editing::of(random, &rows);
    for step in 0..90 {
        let table = editing.table();
        let random = &mut *editing.sending.random;
        let is_removal = random.percent(if step < 40 { 30 } else { 45 });
        let (word, name) = if is_removal {
            (UNSUBSCRIBE, editing.names[random.below(editing.names.len())].clone())
        } else {
            // At first long names, until no run has room for one.
            let length = if step < 12 { MAX_NAME } else { length_near_a_run(random, &table) };
            (SUBSCRIBE, name_of_length(random, length))
        };
        let line = edit_command(random, word, &name);
        editing.names.push(name);
        editing.sending.command(&line);
    }
    // The stored bytes had no room for all of these.
    (0..4).for_each(|_| editing.row());
    editing.show();
    editing.sending.walk(0);
    editing.sending.frames
}

/// 4D and 4E between edits that are refused and edits that are accepted.
pub fn rows_and_entries(random: &mut Random) -> Vec<SentFrame> {
    let count = random.within(0..=12);
    let rows = good_table(random, count);
    let entries = match random.below(3) {
        0 => b"\x00\x00/".to_vec(),
        1 => namespace_list(random),
        _ => b"\x09".to_vec(),
    };
    let edited_early = random.percent(20).then_some(rows.len() / 2);
    let mut editing = Editing::of(random, &[]);
    editing.names = names_of(&rows);
    for (number, row) in rows.into_iter().enumerate() {
        editing.sending.frame(ROW, &table_bytes(&[row]));
        if editing.sending.random.percent(30) {
            editing.refused_edit();
        }
        if edited_early == Some(number) {
            editing.edit();
        }
    }
    if editing.sending.random.percent(30) {
        let text = editing.sending.random.pick(&["a UNSUBSCRIBE ~none", "a UNSUBSCRIBE \"\""]);
        editing.sending.command_text(text);
    }
    for _ in 0..25 {
        match editing.sending.random.below(12) {
            0..5 => editing.edit(),
            5 => editing.refused_edit(),
            6..8 => editing.row(),
            8 if editing.sending.random.percent(20) => editing.sending.frame(ENTRY, &entries),
            8 => editing.sending.frame(ENTRY, b""),
            other => editing.read(other % 3),
        }
    }
    editing.sending.command_text("a NAMESPACE");
    editing.show();
    editing.sending.frames
}

/// Causes of refusal in each order: of the table, the list, the line, the name and the room.
pub fn refusals(random: &mut Random) -> Vec<SentFrame> {
    let rows = childless_rows(random);
    let names = names_of(&rows);
    let is_bad = random.percent(15);
    let table = if is_bad { damaged_table(random, rows) } else { table_bytes(&rows) };
    let mut editing = Editing::of(random, &[]);
    editing.names = names;
    editing.sending.table(&table);
    // In half of the sessions no step is the one at which the list becomes bad.
    let bad_list = editing.sending.random.below(100);
    for step in 0..50 {
        if step == bad_list {
            editing.sending.frame(ENTRY, b"\x09");
        }
        let line = refused_line(editing.sending.random, &editing.names);
        editing.command(&line);
    }
    editing.row();
    editing.show();
    editing.sending.walk(0);
    editing.sending.frames
}

/// Edits, LIST, LSUB and walks, each of some reader, over a table with rows that reader 0 does not see:
/// subscribed ones, and such as take no inferiors.
pub fn every_reader(random: &mut Random) -> Vec<SentFrame> {
    let count = random.within(0..=25);
    let mut rows = subscriptions(random, count);
    veil(random, &mut rows);
    let mut editing = Editing::of(random, &rows);
    for _ in 0..60 {
        let random = &mut *editing.sending.random;
        editing.sending.reader = if random.percent(50) { 0 } else { some_reader(random) };
        match editing.sending.random.below(20) {
            0..13 => editing.edit(),
            13 => editing.refused_edit(),
            other => editing.read(other % 3),
        }
    }
    for reader in 0..=MAX_READER {
        editing.sending.reader = reader;
        editing.show();
    }
    editing.sending.frames
}

impl Editing<'_> {
    /// The rows, and edits that go for their names.
    fn of<'r>(random: &'r mut Random, rows: &[NewRow]) -> Editing<'r> {
        let sending = Sending::over(random, rows);
        Editing { sending, program: Program::default(), followed: 0, names: names_of(rows) }
    }

    /// The records that the program has after the frames so far, or none of rows that do not pass.
    fn table(&mut self) -> Store {
        for frame in &self.sending.frames[self.followed..] {
            self.program.answer(&frame.text);
        }
        self.followed = self.sending.frames.len();
        self.program.records().map_or_else(|_| Store::of_rows(&[]), |store| store.into_owned())
    }

    fn command(&mut self, line: &[u8]) {
        self.sending.command(&line[..line.len().min(MAX_SENT_LINE)]);
    }

    fn edit(&mut self) {
        let table = self.table();
        let line = some_edit(self.sending.random, &mut self.names, &table);
        self.command(&line);
    }

    /// An edit that no table accepts.
    fn refused_edit(&mut self) {
        let known = self.names.first().cloned().unwrap_or_default();
        let random = &mut *self.sending.random;
        let line = match random.below(3) {
            0 => b"a SUBSCRIBE \"\"\r\n".to_vec(),
            1 => edit_command(random, SUBSCRIBE, &[known.as_slice(), b"//x"].concat()),
            _ => b"a SUBSCRIBE a%\r\n".to_vec(),
        };
        self.command(&line);
    }

    /// A frame of 4D: a row, half of one, none, or all that a frame holds.
    fn row(&mut self) {
        let name = name_to_edit(self.sending.random, &self.names);
        let row = Row { flags: Flags::EXISTS, readers: Readers::ALL, name: &name };
        let row = row.to_bytes().unwrap_or_default();
        match self.sending.random.below(5) {
            0 => self.sending.frame(ROW, b""),
            1 => self.sending.frame(ROW, &row[..row.len() / 2]),
            2 => self.sending.frame(ROW, &[0; MAX_PIECE]),
            _ => self.sending.frame(ROW, &row),
        }
    }

    /// A LIST, an LSUB or a walk.
    fn read(&mut self, what: usize) {
        let random = &mut *self.sending.random;
        let line = match what {
            0 => command(random, &self.names),
            1 => lsub_command(random, &self.names),
            _ => {
                let option = random.below(8) as u8;
                return self.sending.walk(option);
            }
        };
        self.command(&line);
    }

    fn show(&mut self) {
        SHOWING.into_iter().for_each(|text| self.sending.command_text(text));
    }
}

/// Rows of many lengths, most of them 0002, after which the packed bytes have little room left.
fn filling_rows(random: &mut Random) -> Vec<NewRow> {
    let (mut rows, mut left) = (Vec::new(), TABLE_ROOM - random.below(2_000));
    for number in 0..MAX_ROWS {
        let length = if random.percent(50) { MAX_NAME } else { random.within(4..=60) };
        if ROW_HEAD + length > left {
            break;
        }
        left -= ROW_HEAD + length;
        let flags = if random.percent(80) { Flags::SUBSCRIBED } else { Flags::EXISTS };
        rows.push(numbered_row(number, length, flags));
    }
    rows
}

/// Few rows, or as many as there may be, of which some take no inferiors.
fn childless_rows(random: &mut Random) -> Vec<NewRow> {
    let count = if random.percent(50) { MAX_ROWS } else { random.within(1..=9) };
    let row = |number| {
        let flags = match random.below(3) {
            0 => Flags::EXISTS.with(Flags::NO_INFERIORS),
            1 => Flags::SUBSCRIBED,
            _ => Flags::EXISTS,
        };
        numbered_row(number, 3, flags)
    };
    (0..count).map(row).collect()
}

/// A name of this length, from 3 on: a number of three digits and filling.
fn numbered_row(number: usize, length: usize, flags: Flags) -> NewRow {
    NewRow::new(flags, format!("{number:03}{}", "n".repeat(length - 3)).into_bytes())
}

/// An edit with one cause of refusal, with two, or with none.
fn refused_line(random: &mut Random, names: &[Vec<u8>]) -> Vec<u8> {
    let known = names[random.below(names.len())].clone();
    let name = match random.below(8) {
        0 => unlawful_name(random, &known),
        1..4 => below_or_beside(random, &known),
        4 | 5 => name_of_length(random, 5),
        _ => known,
    };
    let word = random.pick(&[SUBSCRIBE, SUBSCRIBE, SUBSCRIBE, UNSUBSCRIBE, "SUBSCRIBED"]);
    let mut line = edit_command(random, word, &name);
    match random.below(12) {
        0 => line = damaged(random, line),
        1 => line.insert(line.len() - 2, b' '),
        2 => line.insert(0, b'+'),
        3 => drop(line.pop()),
        _ => {}
    }
    line
}
