//! `compare PROGRAM [--kind NAME] [--seeds A..B] [--quick] [--least N]`
//!
//! Runs sessions of every kind, or of one, in PROGRAM and in the second program: of each kind those
//! of seeds A to B, B not included. Of kinds whose answers are judged by a law it prints what the claims
//! reached; with `--least N` these go on, seed by seed, until N claims of each are judged. Where a law has
//! judged many claims and reached nothing of something that it is about, that is a failure.
//!
//! Each difference, and each claim that does not hold, is printed; the last line is `N passed, M failed`.
//! Status 1 is a failure, or an output that fails; status 2 a wrong call.

use std::collections::BTreeMap;
use std::env;
use std::io::{self, Write};
use std::ops::Range;
use std::path::PathBuf;
use std::process::ExitCode;

use child::find_program;
use compare::reached::Reached;
use compare::trials::{reached_text, unreached, JUDGED};
use compare::{compare_session, kinds, wrong_call, Kind};

const USAGE: &str = "usage: compare PROGRAM [--kind NAME] [--seeds A..B] [--quick] [--least N]";
/// The seeds of each kind, in a whole run and in a quick one.
const SEEDS: Range<u64> = 0..800;
const QUICK_SEEDS: Range<u64> = 0..160;
/// After so many differences the rest is not run.
const MOST_FAILURES: u64 = 10;

struct Call {
    program: PathBuf,
    kinds: Vec<Kind>,
    seeds: Range<u64>,
    /// The claims of each law that are judged at least.
    least: usize,
}

fn main() -> ExitCode {
    let call = match read_call() {
        Ok(call) => call,
        Err(message) => return wrong_call(&message),
    };
    match compare_all(&call, io::stdout().lock()) {
        Ok(0) => ExitCode::SUCCESS,
        Ok(_) => ExitCode::FAILURE,
        Err(error) => {
            eprintln!("cannot write the output: {error}");
            ExitCode::FAILURE
        }
    }
}

/// What came of the sessions so far.
#[derive(Default)]
struct Tally {
    passed: u64,
    failed: u64,
    /// What the claims of each kind reached, by its name.
    reached: BTreeMap<&'static str, Reached>,
}

/// Compares session by session and gives the number of failures. The error is that of the output.
fn compare_all(call: &Call, mut output: impl Write) -> io::Result<u64> {
    let mut tally = Tally::default();
    let sessions =
        call.seeds.clone().flat_map(|seed| call.kinds.iter().map(move |kind| (*kind, seed)));
    for (kind, seed) in sessions {
        tally.compare(call, kind, seed, &mut output)?;
        if tally.is_over() {
            break;
        }
    }
    for kind in call.kinds.iter().filter(|kind| kind.law().is_some()) {
        for seed in call.seeds.end.. {
            if tally.is_over() || tally.judged(kind.name) >= call.least {
                break;
            }
            tally.compare(call, *kind, seed, &mut output)?;
        }
    }
    for kind in &call.kinds {
        tally.report_reached(*kind, &mut output)?;
    }
    writeln!(output, "{} passed, {} failed", tally.passed, tally.failed)?;
    Ok(tally.failed)
}

impl Tally {
    fn compare(
        &mut self,
        call: &Call,
        kind: Kind,
        seed: u64,
        mut output: impl Write,
    ) -> io::Result<()> {
        match compare_session(&call.program, kind, seed) {
            Ok(reached) => {
                self.passed += 1;
                self.reached.entry(kind.name).or_default().add_all(&reached);
            }
            Err(difference) => {
                self.failed += 1;
                writeln!(output, "{difference}")?;
            }
        }
        if self.is_over() {
            writeln!(output, "stopped after {} failures", self.failed)?;
        }
        Ok(())
    }

    fn is_over(&self) -> bool {
        self.failed >= MOST_FAILURES
    }

    fn judged(&self, kind: &str) -> usize {
        self.reached.get(kind).map_or(0, |reached| reached.times(JUDGED))
    }

    /// What the claims of a law reached, and each thing that they did not, which is a failure.
    fn report_reached(&mut self, kind: Kind, mut output: impl Write) -> io::Result<()> {
        let (Some(law), Some(reached)) = (kind.law(), self.reached.get(kind.name)) else {
            return Ok(());
        };
        writeln!(output, "{}: {}", kind.name, reached_text(reached))?;
        for what in unreached(law.needed, reached) {
            self.failed += 1;
            writeln!(output, "kind '{}': no claim reached: {what}", kind.name)?;
        }
        Ok(())
    }
}

fn read_call() -> Result<Call, String> {
    let (mut program, mut seeds, mut kind, mut least) = (None, None, None, 0);
    let mut arguments = env::args().skip(1);
    while let Some(argument) = arguments.next() {
        match argument.as_str() {
            "--seeds" => seeds = Some(read_seeds(&arguments.next().ok_or(USAGE)?)?),
            "--kind" => kind = Some(arguments.next().ok_or(USAGE)?),
            "--quick" => seeds = seeds.or(Some(QUICK_SEEDS)),
            "--least" => {
                least = arguments.next().ok_or(USAGE)?.parse().map_err(|_| USAGE.to_string())?;
            }
            _ if program.is_none() && !argument.starts_with("--") => program = Some(argument),
            _ => return Err(USAGE.to_string()),
        }
    }
    let program = find_program(program.ok_or(USAGE)?.as_ref())?;
    Ok(Call { program, kinds: read_kinds(kind)?, seeds: seeds.unwrap_or(SEEDS), least })
}

/// The kind of a name, or all of them.
fn read_kinds(name: Option<String>) -> Result<Vec<Kind>, String> {
    let is_meant = |kind: &Kind| name.as_deref().is_none_or(|name| name == kind.name);
    let meant: Vec<Kind> = kinds().filter(is_meant).collect();
    if meant.is_empty() {
        let names: Vec<&str> = kinds().map(|kind| kind.name).collect();
        return Err(format!("there is no such kind; the kinds are\n{}", names.join("\n")));
    }
    Ok(meant)
}

/// A..B
fn read_seeds(text: &str) -> Result<Range<u64>, String> {
    let (start, end) = text.split_once("..").ok_or(USAGE)?;
    match (start.parse(), end.parse()) {
        (Ok(start), Ok(end)) => Ok(start..end),
        _ => Err(USAGE.to_string()),
    }
}
