//! Trials: commands over one table, in their order, and what must hold between their answers, by
//! whatever they were answered (document 02, W10 and W11). What is listed is read off the bytes of the
//! answers by a line reader.

use std::collections::BTreeMap;
use std::slice;

use formats::frames::{SentFrame, ANSWER, REFUSAL};
use formats::hex::bytes_of_hex;
use formats::show::show_table;
use second::Line;

use crate::random::Random;
use crate::reached::Reached;
use crate::report::shown;
use crate::requests::Options;
use crate::sending::Sending;
use crate::tables::{table_bytes, NewRow};

/// By this word the claims of a law are counted that were judged.
pub const JUDGED: &str = "judged";
/// After this number of claims a law must have reached all that it is about.
const ENOUGH: usize = 2_000;

/// What a law is shown by: trials, and what their claims must reach, or they show little.
#[derive(Clone, Copy)]
pub struct Law {
    pub trial: fn(&mut Random) -> Trial,
    pub needed: fn() -> Vec<String>,
}

/// Commands over one table, and claims about their answers.
pub struct Trial {
    pub rows: Vec<NewRow>,
    /// Each with the reader from whom it comes.
    pub asked: Vec<(u8, Vec<u8>)>,
    pub claims: Vec<Box<dyn Claim>>,
}

/// An answer, or a number of refusal.
pub type Given = Result<Vec<u8>, u8>;
/// A reader of LIST lines.
pub type ReadLine = fn(&[u8]) -> Option<Line>;
/// The lines of an answer by their names, or a number of refusal.
pub type Answered = Result<Listing, u8>;
pub type Listing = BTreeMap<Vec<u8>, Listed>;

/// A LIST line of an answer.
#[derive(Clone, Debug, PartialEq)]
pub struct Listed {
    pub parts: Line,
    pub bytes: Vec<u8>,
}

/// Something that must hold between the answers to some commands of a trial.
pub trait Claim {
    /// The places of these commands.
    fn places(&self) -> Vec<usize>;

    /// What was met, [`JUDGED`] among it if it is a law's own claim, or why it does not hold.
    fn judge(&self, rows: &[NewRow], answers: &[Answered]) -> Result<Reached, String>;
}

/// Of what is needed, what enough claims have not reached.
pub fn unreached(needed: fn() -> Vec<String>, reached: &Reached) -> Vec<String> {
    unreached_after(ENOUGH, needed, reached)
}

/// Of what is needed, what is not reached where this number of claims is enough.
pub fn unreached_after(
    enough: usize,
    needed: fn() -> Vec<String>,
    reached: &Reached,
) -> Vec<String> {
    if reached.times(JUDGED) < enough {
        return Vec::new();
    }
    needed().into_iter().filter(|what| reached.times(what) == 0).collect()
}

/// How many claims were judged, if any were, and how many of them, or of the calls, reached what. Of sets of options it is said alone how
/// many there were, and how many by reader.
pub fn reached_text(reached: &Reached) -> String {
    let (sets, others): (Vec<_>, Vec<_>) =
        reached.iter().partition(|(what, _)| what.contains(Options::WORD));
    let others = others.iter().filter(|(what, _)| *what != JUDGED);
    let mut texts: Vec<String> = others.map(|(what, times)| format!("{what} {times}")).collect();
    let alone = sets.iter().filter(|(what, _)| what.starts_with(Options::WORD)).count();
    if alone > 0 {
        texts.push(format!("{alone} sets of options, {} by reader", sets.len() - alone));
    }
    match reached.times(JUDGED) {
        0 => texts.join(", "),
        times => format!("{times} {JUDGED}: {}", texts.join(", ")),
    }
}

impl Trial {
    pub fn over(rows: Vec<NewRow>) -> Trial {
        Trial { rows, asked: Vec::new(), claims: Vec::new() }
    }

    /// Adds a command, and gives its place.
    pub fn ask(&mut self, reader: u8, line: Vec<u8>) -> usize {
        self.asked.push((reader, line));
        self.asked.len() - 1
    }

    /// The session that asks it of a program of frames.
    pub fn frames(&self, random: &mut Random) -> Vec<SentFrame> {
        let mut sending = Sending::over(random, &self.rows);
        for (reader, line) in &self.asked {
            sending.reader = *reader;
            sending.command(line);
        }
        sending.frames
    }

    /// Judges what was given for each command. The error says which claim does not hold, and how.
    pub fn judge(&self, given: &[Given], read: ReadLine) -> Result<Reached, String> {
        if given.len() != self.asked.len() {
            return Err(format!("{} answers to {} commands\n", given.len(), self.asked.len()));
        }
        let listing = |(at, given): (usize, &Given)| match given {
            Ok(answer) => listing_of(answer, read).map(Ok).map_err(|reason| {
                format!("{reason}\n{}", self.text_of(&[at], slice::from_ref(given)))
            }),
            Err(number) => Ok(Err(*number)),
        };
        let answers =
            given.iter().enumerate().map(listing).collect::<Result<Vec<Answered>, String>>()?;
        let mut reached = Reached::default();
        for claim in &self.claims {
            let places = claim.places();
            let shown = || {
                let given: Vec<Given> = places.iter().map(|&at| given[at].clone()).collect();
                self.text_of(&places, &given)
            };
            let met = claim.judge(&self.rows, &answers);
            reached.add_once(&met.map_err(|reason| format!("{reason}\n{}", shown()))?);
        }
        Ok(reached)
    }

    /// The table, and the commands of some places with what was given for them.
    fn text_of(&self, places: &[usize], given: &[Given]) -> String {
        let mut text = format!("The table\n{}", show_table(&table_bytes(&self.rows)));
        for (&at, given) in places.iter().zip(given) {
            let (reader, line) = &self.asked[at];
            text += &format!("Command {} of reader {reader}\n    {}\n", at + 1, shown(line));
            text += &match given {
                Ok(answer) => format!("is answered\n    {}\n", shown(answer)),
                Err(number) => format!("is refused with {number}\n"),
            };
        }
        text
    }
}

/// The LIST lines of an answer, which ascend by their names.
fn listing_of(answer: &[u8], read: ReadLine) -> Result<Listing, String> {
    let mut listing = Listing::new();
    let lines = answer.split_inclusive(|&byte| byte == b'\n');
    for line in lines.take_while(|line| line.starts_with(b"* LIST")) {
        let parts = read(line).ok_or_else(|| format!("a line is not read: {}", shown(line)))?;
        let last = listing.last_key_value().map(|(name, _)| name);
        if last.is_some_and(|last| *last >= parts.name) {
            return Err(format!("lines do not ascend by name: {}", shown(line)));
        }
        listing.insert(parts.name.clone(), Listed { parts, bytes: line.to_vec() });
    }
    Ok(listing)
}

/// The lines of a command that must be accepted.
pub fn accepted(answers: &[Answered], at: usize) -> Result<&Listing, String> {
    let refused = |number: &u8| format!("command {} is refused with {number}", at + 1);
    answers[at].as_ref().map_err(refused)
}

/// What a program answered to the commands of a session, from its answer lines in hexadecimal.
pub fn given_of(lines: &[Vec<u8>]) -> Result<Vec<Given>, String> {
    let given = |line: &Vec<u8>| {
        let bytes = bytes_of_hex(line.strip_suffix(b"\n").unwrap_or(line)).unwrap_or_default();
        match bytes.as_slice() {
            [ANSWER, answer @ ..] => Ok(Ok(answer.to_vec())),
            [REFUSAL, number] => Ok(Err(*number)),
            _ => Err(format!("no answer to a command: {}\n", shown(line))),
        }
    };
    lines.iter().map(given).collect()
}

/// The second program's line reader.
pub fn read_by_second(line: &[u8]) -> Option<Line> {
    second::read_line(line).ok()
}
