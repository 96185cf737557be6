//! Rows that gain subscriptions (document 02, W10): "If rows gain subscriptions instead, no listed name
//! and no CHILDINFO is lost." A row gains one by its bit, or as a row 0002 that is inserted.

use formats::name;
use formats::name::is_lawful;
use formats::readers::Reader;
use formats::rows::Flags;
use second::line::Attributes;

use crate::edits::{edit_command, name_to_edit, SUBSCRIBE};
use crate::random::Random;
use crate::reached::Reached;
use crate::readers::{lawful_reader, name_beside, some_set, with_others};
use crate::report::shown;
use crate::requests::{Options, Request};
use crate::subjects::Subject;
use crate::tables::NewRow;
use crate::trials::{accepted, Answered, Claim, Law, Listing, Trial, JUDGED};

/// Requests over one table, asked again after each series of edits.
const REQUESTS: usize = 16;
/// Series of edits.
const SERIES: usize = 2;
/// The most edits of a series.
const EDITS: usize = 6;
/// The most patterns of a request.
const PATTERNS: usize = 3;
/// Numbers that refuse a SUBSCRIBE here and leave the table as it is: a name with a byte 00, one that is
/// unlawful, one without room.
const REFUSED: [u8; 3] = [3, 14, 15];

/// What trials must have among them: of answers, and of edits.
const NEEDED: [&str; 4] =
    ["a name comes", "CHILDINFO comes", "CHILDINFO stays", "\\Subscribed comes"];
const NEEDED_EDITS: [&str; 3] =
    ["a row gains its bit", "a row hidden from reader 0 gains its bit", "a row is inserted"];

/// By SUBSCRIBE commands.
pub const LAW: Law = Law { trial, needed };

fn needed() -> Vec<String> {
    needed_of_tables().into_iter().chain(NEEDED_EDITS.map(str::to_string)).collect()
}

/// What trials of two tables must have among them: every set of options and every reader, too.
pub fn needed_of_tables() -> Vec<String> {
    let options = Options::all().into_iter().map(Options::text);
    let readers = Reader::all().map(reader_text);
    NEEDED.map(str::to_string).into_iter().chain(options).chain(readers).collect()
}

/// Every set of options of every reader: what many claims must have among them.
pub fn needed_jointly() -> Vec<String> {
    let sets = Options::all();
    Reader::all().flat_map(|reader| sets.iter().map(move |set| joint_text(reader, *set))).collect()
}

fn reader_text(reader: Reader) -> String {
    format!("reader {}", reader.number())
}

fn joint_text(reader: Reader, options: Options) -> String {
    format!("{}, {}", reader_text(reader), options.text())
}

/// A request before and after subscriptions were gained.
struct Gain {
    places: [usize; 2],
    request: Request,
}

/// A SUBSCRIBE of a name.
struct Subscribed {
    place: usize,
    name: Vec<u8>,
}

fn trial(random: &mut Random) -> Trial {
    let subject = Subject::some(random);
    let requests = some_requests(random, &subject);
    let lines: Vec<Vec<u8>> = requests.iter().map(|request| request.line(random)).collect();
    let mut trial = Trial::over(subject.rows.clone());
    let mut names = subject.names.clone();
    let mut before = ask_all(&mut trial, &requests, &lines);
    for _ in 0..SERIES {
        for _ in 0..random.within(1..=EDITS) {
            let name = name_to_edit(random, &names);
            let line = edit_command(random, SUBSCRIBE, &name);
            let place = trial.ask(Reader::EDITOR.number(), line);
            trial.claims.push(Box::new(Subscribed { place, name: name.clone() }));
            names.push(name);
        }
        let after = ask_all(&mut trial, &requests, &lines);
        claim_all(&mut trial, &requests, &before, &after);
        before = after;
    }
    trial
}

/// Requests over a table, and over the one that it becomes when rows gain subscriptions without a command:
/// the first half of the trial's commands is for the trial's rows, the other half for those beside it.
pub fn two_tables(random: &mut Random) -> (Trial, Vec<NewRow>) {
    let subject = Subject::some(random);
    let requests = some_requests(random, &subject);
    let lines: Vec<Vec<u8>> = requests.iter().map(|request| request.line(random)).collect();
    let rows = gained(random, &subject.rows);
    let mut trial = Trial::over(subject.rows);
    let [before, after] = [(); 2].map(|()| ask_all(&mut trial, &requests, &lines));
    claim_all(&mut trial, &requests, &before, &after);
    (trial, rows)
}

/// Requests of any reader, with any options.
fn some_requests(random: &mut Random, subject: &Subject) -> Vec<Request> {
    let mut request = |_| {
        let (mut request, about) = subject.some_request(random);
        if random.percent(60) {
            let number = usize::from(lawful_reader(random));
            request.reader = Reader::all().nth(number).expect("one of eight");
        }
        let count = random.within(1..=PATTERNS);
        let patterns = subject.some_patterns(random, &about, &request.reference, count);
        request.with(patterns)
    };
    (0..REQUESTS).map(&mut request).collect()
}

/// Asks each request, and gives the places.
fn ask_all(trial: &mut Trial, requests: &[Request], lines: &[Vec<u8>]) -> Vec<usize> {
    let ask =
        |(request, line): (&Request, &Vec<u8>)| trial.ask(request.reader.number(), line.clone());
    requests.iter().zip(lines).map(ask).collect()
}

fn claim_all(trial: &mut Trial, requests: &[Request], before: &[usize], after: &[usize]) {
    for ((request, &before), &after) in requests.iter().zip(before).zip(after) {
        let gain = Gain { places: [before, after], request: request.clone() };
        trial.claims.push(Box::new(gain));
    }
}

/// The table after some rows have gained their bit, and with some rows 0002 more, which some readers
/// see. No row lies below a row with no inferiors.
fn gained(random: &mut Random, rows: &[NewRow]) -> Vec<NewRow> {
    let mut gained = rows.to_vec();
    for row in &mut gained {
        if random.percent(30) {
            row.flags.add(Flags::SUBSCRIBED);
        }
    }
    let inserted = (0..random.below(5)).map(|_| {
        let name = name::spelled(&name_beside(random, rows));
        NewRow { flags: Flags::SUBSCRIBED, readers: some_set(random), name }
    });
    with_others(gained, inserted.collect())
}

impl Claim for Gain {
    fn places(&self) -> Vec<usize> {
        self.places.to_vec()
    }

    fn judge(&self, _: &[NewRow], answers: &[Answered]) -> Result<Reached, String> {
        let [before, after] = self.places.map(|at| accepted(answers, at));
        let mut reached = judge_gain(before?, after?)?;
        let Request { options, reader, .. } = &self.request;
        reached.add(options.text());
        reached.add(reader_text(*reader));
        reached.add(joint_text(*reader, *options));
        reached.add(JUDGED);
        Ok(reached)
    }
}

/// No name is lost, and no CHILDINFO; a line may gain attributes.
fn judge_gain(before: &Listing, after: &Listing) -> Result<Reached, String> {
    let mut reached = Reached::default();
    for (name, listed) in before {
        let Some(kept) = after.get(name) else {
            return Err(format!("{} is lost", shown(name)));
        };
        let (one, other) = (&listed.parts, &kept.parts);
        if !one.childinfo.is_empty() && one.childinfo != other.childinfo {
            return Err(format!("CHILDINFO of {} is lost", shown(name)));
        }
        let is_subscribed =
            |attributes| Attributes::from_bits(attributes).has(Attributes::SUBSCRIBED);
        reached.add_held([
            ("CHILDINFO stays", !one.childinfo.is_empty()),
            ("CHILDINFO comes", one.childinfo.is_empty() && !other.childinfo.is_empty()),
            ("\\Subscribed comes", !is_subscribed(one.attrs) && is_subscribed(other.attrs)),
        ]);
    }
    reached.add_held([("a name comes", after.len() > before.len())]);
    Ok(reached)
}

impl Claim for Subscribed {
    fn places(&self) -> Vec<usize> {
        vec![self.place]
    }

    /// What it does to the table that the trial begins with.
    fn judge(&self, rows: &[NewRow], answers: &[Answered]) -> Result<Reached, String> {
        let mut reached = Reached::default();
        let name = name::spelled(&self.name);
        match &answers[self.place] {
            Err(number) if REFUSED.contains(number) => reached.add("an edit is refused"),
            Err(number) => return Err(format!("SUBSCRIBE is refused with {number}")),
            Ok(_) if !is_lawful(&name) => return Err("SUBSCRIBE of no name is OK".to_string()),
            Ok(_) => {
                let row = rows.iter().find(|row| row.name == name);
                let gains = row.filter(|row| !row.flags.has(Flags::SUBSCRIBED));
                reached.add_held([
                    ("a row gains its bit", gains.is_some()),
                    (
                        "a row hidden from reader 0 gains its bit",
                        gains.is_some_and(|row| !row.readers.has(Reader::EDITOR)),
                    ),
                    ("a row is inserted", row.is_none()),
                ]);
            }
        }
        Ok(reached)
    }
}
