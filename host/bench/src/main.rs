//! `bench DOCS`, `bench hostile`, and `bench search FILE [--seed N] [--seconds N] [--trials N]`
//!
//! Measures every case at every size, prints the table, and writes it into DOCS/PERFORMANCE.md and
//! the plot to DOCS/performance.svg. Status 1 is a difference between the two libraries, a call that
//! takes longer than the second program's, a check of records that takes too long beside that of the
//! packed form, or an edit that takes too long beside a LIST that lists nothing.
//!
//! `hostile` measures what has no bound alone, the hostile commands and the deep walk, and prints it.
//!
//! `search` looks for the commands that take longest, prints them and writes the ten worst to FILE. Status 1 is a
//! difference between the two libraries.

use std::env;
use std::fs;
use std::path::{Path, PathBuf};
use std::process::ExitCode;

use bench::hostile::{read_all, KNOWN, WORST};
use bench::inputs::{Beside, Call, Case, TableKind, CASES, DEEP_WALK, SIZES};
use bench::measure::{measure, Measured};
use bench::page::{with_measures, Measures, Unbounded};
use bench::plot::plot;
use bench::search::{search, Budget};
use bench::trial::{measure_hostile, Taken, Trial};

const USAGE: &str =
    "usage: bench DOCS, bench hostile, or bench search FILE [--seed N] [--seconds N] [--trials N]";
/// Without the flags.
const BUDGET: Budget = Budget { seed: 1, seconds: 50.0, trials: 100_000 };
/// How long a hostile command is measured.
const HOSTILE_SECONDS: f64 = 2.0;
/// The first line of the file that the search writes.
const WRITTEN: &str = "// The worst commands that the search found (host/bench/run search), which writes this file; host/bench/run measures them.";
/// What a call over the most rows may take, by the second program's time.
const MOST_BY_SECOND: f64 = 1.0;
/// What the check of the most records may take, by that of the packed form of the same rows; and an
/// edit of the most rows, by a LIST that lists nothing: over the tree. Other tables are shown alone.
const MOST_BY_BESIDE: f64 = 1.5;

fn main() -> ExitCode {
    match run() {
        Ok(()) => ExitCode::SUCCESS,
        Err(message) => {
            eprintln!("{message}");
            ExitCode::FAILURE
        }
    }
}

fn run() -> Result<(), String> {
    let words: Vec<String> = env::args().skip(1).collect();
    let words: Vec<&str> = words.iter().map(String::as_str).collect();
    match words[..] {
        ["search", file, ref flags @ ..] => run_search(Path::new(file), budget_of(flags)?),
        ["hostile"] => measured_unbounded().map(|unbounded| print!("{}", unbounded.text())),
        [docs] => run_cases(PathBuf::from(docs)),
        _ => Err(USAGE.to_string()),
    }
}

fn run_cases(docs: PathBuf) -> Result<(), String> {
    let mut measures = Measures::new();
    for case in &CASES {
        measures.push(measured(case)?);
    }
    let unbounded = measured_unbounded()?;
    let page = docs.join("PERFORMANCE.md");
    let with_path = |error| format!("{}: {error}", docs.display());
    let text = with_measures(&fs::read_to_string(&page).map_err(with_path)?, &measures, &unbounded)
        .ok_or("PERFORMANCE.md has no place for the table or the worst commands")?;
    fs::write(page, text).map_err(with_path)?;
    fs::write(docs.join("performance.svg"), plot(&measures)).map_err(with_path)?;
    check_second(&measures)?;
    check_beside(&measures)
}

/// Measures what has no bound.
fn measured_unbounded() -> Result<Unbounded, String> {
    let (known, found) = (measured_hostile(KNOWN)?, measured_hostile(WORST)?);
    Ok(Unbounded { known, found, walk: measured(&DEEP_WALK)? })
}

fn budget_of(flags: &[&str]) -> Result<Budget, String> {
    let mut budget = BUDGET;
    for pair in flags.chunks(2) {
        let [flag, number] = pair else { return Err(USAGE.to_string()) };
        let number: u32 = number.parse().map_err(|_| USAGE)?;
        match *flag {
            "--seed" => budget.seed = number.into(),
            "--seconds" => budget.seconds = number.into(),
            "--trials" => budget.trials = number as usize,
            _ => return Err(USAGE.to_string()),
        }
    }
    Ok(budget)
}

/// Searches from what is known and what the file has, and writes the worst to the file.
fn run_search(file: &Path, budget: Budget) -> Result<(), String> {
    let with_path = |error| format!("{}: {error}", file.display());
    let mut known = read_all(KNOWN)?;
    known.extend(read_all(&fs::read_to_string(file).map_err(with_path)?)?);
    let (worst, tried) = search(&known, budget)?;
    println!("{tried} commands tried, seed {}", budget.seed);
    worst.iter().for_each(|taken| println!("{}", shown_hostile(taken)));
    let lines: String = worst.iter().map(|taken| format!("{}\n", taken.hostile)).collect();
    fs::write(file, format!("{WRITTEN}\n{lines}")).map_err(with_path)
}

/// Measures the commands of a file, and prints what each took.
fn measured_hostile(text: &str) -> Result<Vec<Taken>, String> {
    let mut reference = Trial::reference();
    let mut all = Vec::new();
    for hostile in read_all(text)? {
        let taken = measure_hostile(&hostile, &mut reference, HOSTILE_SECONDS)?;
        println!("{}", shown_hostile(&taken));
        all.push(taken);
    }
    Ok(all)
}

fn shown_hostile(taken: &Taken) -> String {
    format!(
        "{}\n    {} steps, {:.1} ms, {:.2} of the second program, {:.0} times LIST \"\" \"*\" over 512 rows",
        taken.hostile,
        taken.steps,
        taken.seconds * 1e3,
        taken.by_second,
        taken.by_reference
    )
}

/// Measures a case, and prints what it took at each size.
fn measured(case: &Case) -> Result<[Measured; SIZES.len()], String> {
    let measured = measure(case)?;
    for (rows, one) in SIZES.iter().zip(&measured) {
        println!("{}", shown(case, *rows, one));
    }
    Ok(measured)
}

/// No call over the most rows takes longer than the second program's.
fn check_second(measures: &Measures) -> Result<(), String> {
    let mut too_long = Vec::new();
    for (case, measured) in CASES.iter().zip(measures) {
        let ratio = measured[SIZES.len() - 1].by_second;
        if ratio > MOST_BY_SECOND {
            too_long.push(format!("{}: {ratio:.2} of the second program", case.title));
        }
    }
    if too_long.is_empty() {
        Ok(())
    } else {
        Err(too_long.join("\n"))
    }
}

/// The checks of records and the edits at the most rows, each beside what it is measured beside.
fn check_beside(measures: &Measures) -> Result<(), String> {
    let mut too_long = Vec::new();
    for (case, measured) in CASES.iter().zip(measures) {
        let ratio = measured[SIZES.len() - 1].by_beside;
        let bounded =
            matches!((&case.table, &case.call), (TableKind::Tree, Call::Check | Call::Edit(_)));
        let Some(ratio) = ratio.filter(|_| bounded) else {
            continue;
        };
        let text = format!("{}: {ratio:.2}{}", case.title, beside_text(case));
        println!("{text}, at most {MOST_BY_BESIDE}");
        if ratio > MOST_BY_BESIDE {
            too_long.push(format!("{text}, which is more than {MOST_BY_BESIDE}"));
        }
    }
    if too_long.is_empty() {
        Ok(())
    } else {
        Err(too_long.join("\n"))
    }
}

fn beside_text(case: &Case) -> &'static str {
    match case.beside() {
        Some(Beside::Packed) => " of the packed form",
        Some(Beside::Listing) => " of a LIST that lists nothing",
        None => "",
    }
}

fn shown(case: &Case, rows: usize, one: &Measured) -> String {
    let beside = one.by_beside.map(|ratio| format!(", {ratio:.2}{}", beside_text(case)));
    format!(
        "{:42} {rows:4} rows: {:5.2} of the second program, {:7.1} floors by bytes, {:6.0} by blocks, {:4.1} times 64 rows, {:3.1} times half as many, {:8.1} us{}{}",
        case.title,
        one.by_second,
        one.by_byte_floor,
        one.by_block_floor,
        one.growth,
        one.doubling,
        one.seconds * 1e6,
        beside.unwrap_or_default(),
        one.steps.map(|steps| format!(", {steps} steps")).unwrap_or_default()
    )
}
