//! One hostile command, asked of both libraries over a table of its own: equal answers first, then times.

use std::hint::black_box;

use compare::library::both::{Asked, Mailboxes, ANSWER, PROVED, SECOND};

use crate::clock::seconds_of_one;
use crate::hostile::Hostile;
use crate::inputs::TableKind;
use crate::measure::median;

/// Any answer over a table that passes has fewer bytes (`LUSPEMARO_ROOM_ANSWER`).
const ANSWER_SIZE: usize = 1_572_864;
const UNUSED: u8 = b'.';
/// What every command is measured beside: over the tree, as large as a table can be.
const REFERENCE_LINE: &[u8] = b"a LIST \"\" \"*\"\r\n";
const REFERENCE_ROWS: usize = 512;
/// Calls of it make a sample.
const REFERENCE_CALLS: usize = 16;
/// No more rounds than those of the other cases, and an odd number, for the median.
const MOST_ROUNDS: usize = 41;

/// A command line and its table, with a buffer for answers.
pub struct Trial {
    mailboxes: Mailboxes,
    line: Vec<u8>,
    out: Vec<u8>,
}

/// What a command took.
#[derive(Clone)]
pub struct Taken {
    pub hostile: Hostile,
    pub steps: u64,
    /// Of the proved library.
    pub seconds: f64,
    /// Its time by the second program's.
    pub by_second: f64,
    /// Its time by that of `LIST "" "*"` over 512 rows, in the same rounds.
    pub by_reference: f64,
}

impl Trial {
    pub fn new(hostile: &Hostile) -> Trial {
        Trial::over(Mailboxes::new(hostile.layout()), hostile.line())
    }

    /// The command that others are measured beside.
    pub fn reference() -> Trial {
        let layout = TableKind::Tree.layout(REFERENCE_ROWS, |_| 1);
        Trial::over(Mailboxes::new(layout), REFERENCE_LINE.to_vec())
    }

    fn over(mailboxes: Mailboxes, line: Vec<u8>) -> Trial {
        Trial { mailboxes, line, out: vec![UNUSED; ANSWER_SIZE] }
    }

    /// The length of the answer, or the number of the refusal.
    pub fn ask(&mut self, who: usize) -> Result<usize, u8> {
        let Trial { mailboxes, line, out } = self;
        ANSWER[who](mailboxes, Asked::by_0(line), out).map(|given| given.length)
    }

    /// The seconds of both libraries, if both accept the command and answer the same bytes.
    pub fn verified(&mut self) -> Result<[f64; 2], String> {
        let mut given = [Ok(0); 2];
        let proved_seconds = seconds_of_one(1, || given[PROVED] = self.ask(PROVED));
        let proved = self.out.clone();
        self.out.fill(UNUSED);
        let second_seconds = seconds_of_one(1, || given[SECOND] = self.ask(SECOND));
        match (given[PROVED], given[PROVED] == given[SECOND] && proved == self.out) {
            (Err(number), true) => Err(format!("it is refused with {number}")),
            (Ok(_), true) => Ok([proved_seconds, second_seconds]),
            (_, false) => Err(format!("the two libraries differ: {given:?}")),
        }
    }

    /// Seconds of one call.
    pub fn seconds(&mut self, who: usize) -> f64 {
        seconds_of_one(1, || _ = black_box(self.ask(black_box(who))))
    }

    fn reference_seconds(&mut self) -> f64 {
        seconds_of_one(REFERENCE_CALLS, || _ = black_box(self.ask(PROVED)))
    }
}

/// Measures a command in as many rounds as take so many seconds, one at least. The error is a refusal or a difference.
pub fn measure_hostile(
    hostile: &Hostile,
    reference: &mut Trial,
    budget: f64,
) -> Result<Taken, String> {
    let mut trial = Trial::new(hostile);
    let first = trial.verified().map_err(|text| format!("{hostile}: {text}"))?;
    let mut rounds = vec![[first[PROVED], first[SECOND], reference.reference_seconds()]];
    let mut spent: f64 = rounds[0].iter().sum();
    while rounds.len() < MOST_ROUNDS && (rounds.len() % 2 == 0 || spent < budget) {
        let beside = reference.reference_seconds();
        let round = [trial.seconds(PROVED), trial.seconds(SECOND), beside];
        spent += round.iter().sum::<f64>();
        rounds.push(round);
    }
    let of = |value: &dyn Fn(&[f64; 3]) -> f64| median(rounds.iter().map(value).collect());
    Ok(Taken {
        steps: hostile.steps(),
        seconds: of(&|round| round[0]),
        by_second: of(&|round| round[0] / round[1]),
        by_reference: of(&|round| round[0] / round[2]),
        hostile: hostile.clone(),
    })
}
