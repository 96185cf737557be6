//! The same call to both libraries: equal results first, then their times, round by round.

use std::array;
use std::hint::black_box;

use compare::library::both::{
    Asked, Lent, Mailboxes, ANSWER, CHECK_TABLE, COLLECT, COMPACT, PROVED, SECOND, SUMMARIZE,
};

use crate::clock::{processor_seconds, seconds_of_one};
use crate::floor;
use crate::inputs::{line_of, namespaces, Beside, Call, Case, Edit, Form, LISTING, SIZES};
use crate::steps::match_steps;

/// More than the OK line.
const UNDO_ROOM: usize = 64;
/// A sample repeats a call for about so long.
const SAMPLE_SECONDS: f64 = 0.000_5;
/// In a round each contender has one sample at each size, one after the other.
const ROUNDS: usize = 41;
/// Of a case whose rounds are long, there are so few that they take no longer, but as many as these at least.
const CASE_SECONDS: f64 = 10.0;
const FEWEST_ROUNDS: usize = 3;

/// Who is measured: the two libraries, by their places in `both`, the two floors, and the proved
/// library beside itself.
const CONTENDERS: usize = 5;
const BYTE_FLOOR: usize = 2;
const BLOCK_FLOOR: usize = 3;
const BESIDE: usize = 4;

/// Medians over the rounds.
pub struct Measured {
    /// The proved library's time by the second program's.
    pub by_second: f64,
    /// The same by reading the table once and copying the answer, byte by byte.
    pub by_byte_floor: f64,
    /// The same with the widest loads and stores there are.
    pub by_block_floor: f64,
    /// The same by its own for what the case is measured beside, if it is.
    pub by_beside: Option<f64>,
    /// The proved library's time by its own at the first size.
    pub growth: f64,
    /// The same by its own at the size before, which is half of this one; 1 at the first.
    pub doubling: f64,
    /// Seconds of one call of the proved library.
    pub seconds: f64,
    /// Steps of the match over the names of the rows, of a command made of repeated patterns.
    pub steps: Option<u64>,
}

/// The result of a call, and the lent memory behind it.
#[derive(PartialEq)]
struct Done {
    /// Count and length.
    result: Result<(usize, usize), u8>,
    lent: Buffers,
}

#[derive(PartialEq)]
struct Buffers {
    out: Vec<u8>,
    found: Vec<u8>,
    pending: Vec<u8>,
}

struct Inputs {
    reader: u8,
    packed: Vec<u8>,
    records: Mailboxes,
    /// The same before the first call.
    lent: Mailboxes,
    form: Form,
    namespaces: Vec<u8>,
    line: Vec<u8>,
    /// What makes the records again what they were.
    undo: Option<Vec<u8>>,
    call: Call,
    beside: Option<Beside>,
    listing: Vec<u8>,
    buffer_size: usize,
}

/// What is measured at one size, and how many calls make a sample.
struct Prepared {
    inputs: Inputs,
    done: Done,
    calls: [usize; CONTENDERS],
}

/// The seconds of one call, by size and contender.
type Round = [[f64; CONTENDERS]; SIZES.len()];

/// Measures a case at every size. The error is a difference, or a refusal that is not meant.
pub fn measure(case: &Case) -> Result<[Measured; SIZES.len()], String> {
    let mut lent = Buffers::new(case.buffer_size());
    let mut prepared = Vec::new();
    for rows in SIZES {
        let mut inputs = Inputs::new(case, rows);
        let told = |text| format!("{}, {rows} rows: {text}", case.title);
        let done = inputs.verified().map_err(told)?;
        let calls = array::from_fn(|who| inputs.calls(who, &done, &mut lent));
        prepared.push(Prepared { inputs, done, calls });
    }
    let mut rounds: Vec<Round> = Vec::new();
    let start = processor_seconds();
    let is_long = || processor_seconds() - start > CASE_SECONDS;
    while rounds.len() < ROUNDS && (rounds.len() < FEWEST_ROUNDS || !is_long()) {
        rounds.push(array::from_fn(|size| prepared[size].seconds(&mut lent)));
    }
    Ok(array::from_fn(|size| Measured {
        steps: steps(case, SIZES[size]),
        ..medians(&rounds, size, case.beside().is_some())
    }))
}

/// The steps in which each row's name is matched: against one pattern after the other, up to the
/// first that it matches.
fn steps(case: &Case, rows: usize) -> Option<u64> {
    let Call::Command(command) = case.call else { return None };
    let patterns = command.patterns()?;
    Some(case.table.rows(rows).iter().map(|row| match_steps(&patterns, &row.name).0).sum())
}

fn medians(rounds: &[Round], size: usize, has_beside: bool) -> Measured {
    let median_of = |value: &dyn Fn(&Round) -> f64| median(rounds.iter().map(value).collect());
    let by = |who: usize| median_of(&|round| round[size][PROVED] / round[size][who]);
    Measured {
        by_second: by(SECOND),
        by_byte_floor: by(BYTE_FLOOR),
        by_block_floor: by(BLOCK_FLOOR),
        by_beside: has_beside.then(|| by(BESIDE)),
        growth: median_of(&|round| round[size][PROVED] / round[0][PROVED]),
        doubling: median_of(&|round| round[size][PROVED] / round[size.saturating_sub(1)][PROVED]),
        seconds: median_of(&|round| round[size][PROVED]),
        steps: None,
    }
}

impl Prepared {
    /// One sample of each contender.
    fn seconds(&mut self, lent: &mut Buffers) -> [f64; CONTENDERS] {
        array::from_fn(|who| self.inputs.seconds(who, self.calls[who], &self.done, lent))
    }
}

impl Inputs {
    fn new(case: &Case, rows: usize) -> Inputs {
        let (line, undo) = match case.call {
            Call::Command(command) => (command.line(), None),
            Call::Edit(Edit { line, undo, .. }) => (line_of(line), undo.map(line_of)),
            Call::Check | Call::Walk(_) | Call::Compaction | Call::Summary => (Vec::new(), None),
        };
        let records = Mailboxes::new(case.layout(rows));
        Inputs {
            reader: case.reader(),
            packed: case.table.bytes(rows),
            lent: records.clone(),
            records,
            form: case.form,
            namespaces: namespaces(),
            line,
            undo,
            call: case.call,
            beside: case.beside(),
            listing: line_of(LISTING),
            buffer_size: case.buffer_size(),
        }
    }

    /// The table for reading, in its form, or in the packed one.
    fn table(&self, who: usize) -> Lent<'_> {
        match self.form {
            Form::Records if who != BESIDE => Lent::Records(&self.records),
            _ => Lent::Packed(&self.packed),
        }
    }

    /// What both libraries give, and the proved one over the packed form, if it is the same and refused
    /// only as it is meant to be. After a call, and after what undoes it, both have the same rows.
    fn verified(&mut self) -> Result<Done, String> {
        let [proved, second] = [PROVED, SECOND].map(|who| self.done(who));
        self.verify_rows()?;
        [PROVED, SECOND].into_iter().for_each(|who| self.undo(who));
        self.verify_rows()?;
        let meant = match self.call {
            Call::Edit(edit) => edit.refusal,
            _ => None,
        };
        if proved.result.err() != meant {
            return Err(format!("it gives {:?}", proved.result));
        }
        if proved != second {
            return Err("the two libraries differ".to_string());
        }
        if self.beside == Some(Beside::Packed) && proved != self.done(BESIDE) {
            return Err("the two forms differ".to_string());
        }
        Ok(proved)
    }

    fn verify_rows(&self) -> Result<(), String> {
        self.records.difference().map_or(Ok(()), |text| Err(format!("the rows differ: {text}")))
    }

    fn done(&mut self, who: usize) -> Done {
        let mut lent = Buffers::new(self.buffer_size);
        Done { result: self.run(who, &mut lent), lent }
    }

    /// How many calls of a contender take about one sample's time.
    fn calls(&mut self, who: usize, done: &Done, lent: &mut Buffers) -> usize {
        let mut calls = 1;
        while self.seconds(who, calls, done, lent) * (calls as f64) < SAMPLE_SECONDS {
            calls *= 2;
        }
        calls
    }

    /// Seconds of one call of a contender, from so many; no number where there is no such contender.
    fn seconds(&mut self, who: usize, calls: usize, done: &Done, lent: &mut Buffers) -> f64 {
        match (who, self.call) {
            (BESIDE, _) if self.beside.is_none() => f64::NAN,
            (BYTE_FLOOR, _) => {
                seconds_of_one(calls, || self.run_floor(floor::byte_by_byte, done, lent))
            }
            (BLOCK_FLOOR, _) => {
                seconds_of_one(calls, || self.run_floor(floor::by_blocks, done, lent))
            }
            (_, Call::Edit(_) | Call::Compaction) => self.seconds_of_changes(who, calls, lent),
            _ => seconds_of_one(calls, || _ = black_box(self.run(black_box(who), lent))),
        }
    }

    /// Each call is timed by itself, and what undoes it is not; the listing beside it is timed so too.
    fn seconds_of_changes(&mut self, who: usize, calls: usize, lent: &mut Buffers) -> f64 {
        let mut seconds = 0.0;
        for _ in 0..calls {
            seconds += seconds_of_one(1, || _ = black_box(self.run(black_box(who), lent)));
            if who != BESIDE {
                self.undo(who);
            }
        }
        seconds / calls as f64
    }

    fn run(&mut self, who: usize, lent: &mut Buffers) -> Result<(usize, usize), u8> {
        let Buffers { out, found, pending } = lent;
        let library = if who == SECOND { SECOND } else { PROVED };
        let is_listing = who == BESIDE && self.beside == Some(Beside::Listing);
        match self.call {
            Call::Check => CHECK_TABLE[library](self.table(who)).then_some((0, 0)).ok_or(1),
            Call::Walk(option) => {
                COLLECT[library](self.reader, self.table(who), option, out, found, pending)
            }
            Call::Compaction if !is_listing => COMPACT[library](&mut self.records).map(|()| (0, 0)),
            Call::Summary => SUMMARIZE[library](&mut self.records).map(|()| (0, 0)),
            Call::Command(_) | Call::Edit(_) | Call::Compaction => {
                let line = if is_listing { &self.listing } else { &self.line };
                let asked = Asked { reader: self.reader, list: &self.namespaces, line };
                let answered = ANSWER[library](&mut self.records, asked, out);
                answered.map(|given| (given.count, given.length))
            }
        }
    }

    /// Makes the rows again what they were before a call that changes them: an edit is undone by another,
    /// a compaction by a copy of what was lent.
    fn undo(&mut self, who: usize) {
        if matches!(self.call, Call::Compaction) {
            self.records.restore(who, &self.lent);
        }
        if let Some(undo) = &self.undo {
            let asked = Asked { list: &self.namespaces, ..Asked::by_0(undo) };
            let undone = ANSWER[who](&mut self.records, asked, &mut [0; UNDO_ROOM]);
            assert!(undone.is_ok(), "what undoes an edit is refused: {undone:?}");
        }
    }

    /// Of records too it is the packed table that is read. A compaction has no answer: its area is copied.
    fn run_floor(&self, floor: fn(&[u8], &[u8], &mut [u8]), done: &Done, lent: &mut Buffers) {
        let length = done.result.map_or(0, |(_, length)| length);
        let (from, to) = match self.call {
            Call::Walk(_) => (&done.lent.found[..length], &mut lent.found),
            Call::Compaction => (self.lent.layout().area.as_slice(), &mut lent.out),
            _ => (&done.lent.out[..length], &mut lent.out),
        };
        floor(black_box(&self.packed), black_box(from), &mut to[..from.len()]);
        black_box(to);
    }
}

impl Buffers {
    fn new(size: usize) -> Buffers {
        Buffers { out: vec![b'.'; size], found: vec![b'.'; size], pending: vec![b'.'; size] }
    }
}

pub fn median(mut values: Vec<f64>) -> f64 {
    values.sort_by(f64::total_cmp);
    values[values.len() / 2]
}
