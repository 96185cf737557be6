//! What must hold between the answers to several commands (document 02, W10 and W11), and of the collector's
//! own (W12), by the proved library, its line reader included.

use luspemaro::ListOptions;
use second::{Criteria, Line};

use super::both::{Asked, Mailboxes, ANSWER, JOIN, PROVED};
use super::tally::Tally;
use crate::gains;
use crate::joins;
use crate::more_patterns;
use crate::own_commands;
use crate::random::Random;
use crate::records::{extend, laid_out};
use crate::tables::NewRow;
use crate::trials::{Given, Law, Trial};

/// Longer than any answer here.
const ROOM: usize = 16_384;
/// Buffers of walks, from none up to one with room enough.
const ROOMS: [usize; 5] = [0, 11, 300, 700, ROOM];
/// After this number of claims, every set of options must have come from every reader.
const MANY: usize = 20_000;
/// Room for the rows that edits insert.
const SPARE_RECORDS: usize = 16;
const SPARE_BYTES: usize = 1_024;

/// A pattern more, or several.
pub fn more_patterns(tally: &mut Tally) {
    judge_law(tally, "library: more patterns", more_patterns::LAW);
}

/// Rows that gain subscriptions by SUBSCRIBE commands.
pub fn gains(tally: &mut Tally) {
    judge_law(tally, "library: rows that gain subscriptions", gains::LAW);
    tally.need_after(MANY, gains::needed_jointly);
}

/// Rows that gain subscriptions without a command: two tables.
pub fn gained_tables(tally: &mut Tally) {
    tally.for_each_seed(|tally, seed| {
        let mut random = Random::of("library: gained subscriptions", seed);
        let (trial, rows) = gains::two_tables(&mut random);
        let (before, after) = trial.asked.split_at(trial.asked.len() / 2);
        let mut given = given_of(&mut random, &trial.rows, before);
        given.extend(given_of(&mut random, &rows, after));
        judge(tally, seed, &trial, &given);
    });
    tally.need(gains::needed_of_tables);
    tally.need_after(MANY, gains::needed_jointly);
}

/// Two requests made one.
pub fn joins(tally: &mut Tally) {
    judge_law(tally, "library: joined requests", joins::LAW);
}

/// Two requests made one, whose line the library writes.
pub fn written_joins(tally: &mut Tally) {
    let trial = |random: &mut Random| {
        joins::trial_with(random, |request, random| {
            joins::joined_line(request, random, |tag, request, out| {
                let patterns: Vec<&[u8]> = request.patterns.iter().map(Vec::as_slice).collect();
                let list_options = ListOptions::from_bits(request.options.number());
                let options = list_options.expect("a set of options");
                JOIN[PROVED](tag, options, &request.reference, &patterns, out)
            })
        })
    };
    judge_law(tally, "library: written joins", Law { trial, needed: joins::LAW.needed });
}

/// The collector's own commands, in buffers with room enough and without.
pub fn own_commands(tally: &mut Tally) {
    tally.for_each_seed(|tally, seed| {
        let mut random = Random::of("library: own commands", seed);
        let trial = (own_commands::LAW.trial)(&mut random);
        let room = ROOMS[random.below(ROOMS.len())];
        let given = given_in(&mut random, &trial.rows, &trial.asked, room);
        judge(tally, seed, &trial, &given);
    });
    tally.need(own_commands::LAW.needed);
    tally.need(|| vec!["refused with 9".to_string()]);
}

fn judge_law(tally: &mut Tally, stream: &str, law: Law) {
    tally.for_each_seed(|tally, seed| {
        let mut random = Random::of(stream, seed);
        let trial = (law.trial)(&mut random);
        let given = given_of(&mut random, &trial.rows, &trial.asked);
        judge(tally, seed, &trial, &given);
    });
    tally.need(law.needed);
}

fn judge(tally: &mut Tally, seed: u64, trial: &Trial, given: &[Given]) {
    let judged = trial.judge(given, read_by_proved);
    tally.judged(judged.map_err(|reason| format!("seed {seed}: {reason}")));
}

/// What the proved library answers to commands over rows, in their order; edits change the rows.
fn given_of(random: &mut Random, rows: &[NewRow], asked: &[(u8, Vec<u8>)]) -> Vec<Given> {
    given_in(random, rows, asked, ROOM)
}

/// What it answers in a buffer of this length.
fn given_in(
    random: &mut Random,
    rows: &[NewRow],
    asked: &[(u8, Vec<u8>)],
    room: usize,
) -> Vec<Given> {
    let mut layout = laid_out(random, rows);
    extend(&mut layout, SPARE_RECORDS, SPARE_BYTES, b'/');
    let mut table = Mailboxes::new(layout);
    let mut out = vec![0; room];
    let mut answer = |(reader, line): &(u8, Vec<u8>)| {
        let asked = Asked { reader: *reader, ..Asked::by_0(line) };
        let answered = ANSWER[PROVED](&mut table, asked, &mut out)?;
        Ok(out[..answered.length].to_vec())
    };
    asked.iter().map(&mut answer).collect()
}

/// The proved line reader.
fn read_by_proved(line: &[u8]) -> Option<Line> {
    let parts = luspemaro::read_line(line).ok()?;
    let childinfo = Criteria::from_bits(parts.childinfo.bits())?;
    Some(Line { attrs: parts.attributes, name: parts.name().to_vec(), childinfo })
}
