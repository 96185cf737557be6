//! The command entry.

use formats::show::show_namespaces;
use second::{answer_reading, Refusal, Table};

use super::both::{Asked, Lent, Mailboxes, ANSWER, PROVED, SECOND};
use super::compared::Compared;
use super::tally::{shown, Tally, Text, SEED};
use crate::commands::{command, damaged};
use crate::damage::{damaged_table, namespace_list};
use crate::lsub::{lsub_command, subscriptions};
use crate::random::Random;
use crate::tables::{good_table, names_of, table_bytes};

const TABLES: usize = 4_000;
const COMMANDS_A_TABLE: usize = 6;
/// More than any answer here.
const ROOM: usize = 16_384;
const FILL: u8 = b'.';

pub fn commands(tally: &mut Tally) {
    let mut random = Random::of("library: commands", SEED);
    for _ in 0..TABLES {
        let count = random.below(20);
        let rows = good_table(&mut random, count);
        let names: Vec<Vec<u8>> = rows.iter().map(|row| row.name.clone()).collect();
        let bad = random.percent(5);
        let table = if bad { damaged_table(&mut random, rows) } else { table_bytes(&rows) };
        let mut table = Compared::packed(table);
        let list = if random.percent(30) { namespace_list(&mut random) } else { Vec::new() };
        for _ in 0..COMMANDS_A_TABLE {
            let mut line = command(&mut random, &names);
            if random.percent(30) {
                line = damaged(&mut random, line);
            }
            answer_in_rooms(tally, &mut table, Asked { reader: 0, list: &list, line: &line });
        }
    }
}

/// LSUB, lawful and damaged, over tables with many subscriptions or few.
pub fn lsub(tally: &mut Tally) {
    let mut random = Random::of("library: LSUB", SEED);
    for _ in 0..TABLES {
        let count = random.below(20);
        let rows = subscriptions(&mut random, count);
        let names = names_of(&rows);
        let mut table = Compared::packed(table_bytes(&rows));
        for _ in 0..COMMANDS_A_TABLE {
            let mut line = lsub_command(&mut random, &names);
            if random.percent(20) {
                line = damaged(&mut random, line);
            }
            answer_in_rooms(tally, &mut table, Asked::by_0(&line));
        }
    }
}

/// Answers in a buffer with room enough, and in buffers on both sides of the answer's length; a command
/// that is no edit.
pub fn answer_in_rooms(tally: &mut Tally, table: &mut Compared, asked: Asked) {
    let need = answer_over(tally, table, asked, ROOM);
    for room in [0, need.saturating_sub(1), need, need + 1] {
        answer_over(tally, table, asked, room);
    }
}

/// Answers by both libraries over records, or by the second program over a packed table and by the
/// proved one over its records, and gives the length of the answer, 0 if it was refused. A packed table
/// that has no records is not answered.
pub fn answer_over(tally: &mut Tally, table: &mut Compared, asked: Asked, room: usize) -> usize {
    match table {
        Compared::Records(records) => answer_both(tally, records, asked, room),
        Compared::Packed { records: None, .. } => 0,
        Compared::Packed { table, records: Some(records) } => {
            let mut out = [PROVED, SECOND].map(|_| vec![FILL; room]);
            let proved = ANSWER[PROVED](records, asked, &mut out[PROVED]);
            let (table, Asked { reader, list, line }) = (Table::Packed(table), asked);
            let second = answer_reading(reader, table, list, line, &mut out[SECOND]);
            let second = second.map_err(Refusal::number);
            let results = [proved.map(|answered| answered.length), second];
            let [proved_out, second_out] = out.map(Text);
            let given = [
                (results[PROVED], proved_out, records.difference()),
                (results[SECOND], second_out, None),
            ];
            tally.same(|| call_text(records, asked, room), given);
            second.unwrap_or(0)
        }
    }
}

/// Answers by both libraries, each over its own records, which an edit changes. Result, count, whether a row
/// changed, buffer, every record, every number of the summary and every byte of the area are compared.
pub fn answer_both(tally: &mut Tally, table: &mut Mailboxes, asked: Asked, room: usize) -> usize {
    let given = [PROVED, SECOND].map(|who| {
        let mut out = vec![FILL; room];
        let result = ANSWER[who](table, asked, &mut out);
        (result, Text(out))
    });
    let length = given[SECOND].0.map_or(0, |answered| answered.length);
    let [(proved, proved_out), (second, second_out)] = given;
    let given = [(proved, proved_out, table.difference()), (second, second_out, None)];
    tally.same(|| call_text(table, asked, room), given);
    length
}

/// The call, with the table as it is after it.
pub fn call_text(table: &Mailboxes, asked: Asked, room: usize) -> String {
    let Asked { reader, list, line } = asked;
    let (line, table, list) = (shown(line), Lent::Records(table), show_namespaces(list));
    let asked = format!("answer: reader {reader}, line {line}, room {room}");
    format!("{asked}, table afterwards and namespace list\n{table}{list}")
}
