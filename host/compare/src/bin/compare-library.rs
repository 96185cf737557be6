//! `compare-library [--group TEXT] [--least N]`: the proved library against the second program's; see `HELP`.

use std::env;
use std::process::ExitCode;

use compare::library::{Group, Tally, GROUPS};
use compare::reached::Reached;
use compare::trials::reached_text;
use compare::wrong_call;

const USAGE: &str = "usage: compare-library [--group TEXT] [--least N]";
const HELP: &str = "\
Compares the proved library with the second program's: lines written and read, patterns, the two checks, commands,
walks, records, edits, readers, compactions, summaries, replays, joined commands and the feeder; and judges the proved
library's answers to several commands by the laws about them.

  --group TEXT  only the groups whose name has TEXT in it
  --least N     groups that go on seed by seed compare, or judge, at least N times, and that of replays of nights reads
                at least N frames; without N, 100,000 times, those of laws 20,000 times, and 50,000 frames
  --help        this text

Over a million edits with their summaries, and a million frames of logs that are replayed:

  compare-library --group 'kept up to date' --least 1300000
  compare-library --group 'replays of nights' --least 1000000

Of each group a line says how many comparisons were made and how many of them differed, and another what was reached, if
that is counted. Each difference is printed, and each claim that does not hold; the last line is 'N passed, M failed', by
groups. Status 1: something differed. Status 2: a wrong call.";
/// Comparisons of a group that goes on seed by seed; claims of a law, and frames of logs, by what the group's name begins
/// with.
const LEAST: u64 = 100_000;
const LEAST_OF: [(&str, u64); 2] = [("laws: ", 20_000), ("replays of nights", 50_000)];

struct Call {
    groups: Vec<Group>,
    least: Option<u64>,
}

fn main() -> ExitCode {
    let call = match read_call() {
        Ok(Some(call)) => call,
        Ok(None) => {
            println!("{USAGE}\n\n{HELP}");
            return ExitCode::SUCCESS;
        }
        Err(message) => return wrong_call(&message),
    };
    let (mut passed, mut failed) = (0, 0);
    for (name, compare) in call.groups {
        let mut tally = Tally::new(call.least.unwrap_or(usual_least(name)));
        compare(&mut tally);
        println!("{name}: {} compared, {} different", tally.compared, tally.different);
        if tally.reached != Reached::default() {
            println!("    {}", reached_text(&tally.reached));
        }
        if tally.different == 0 {
            passed += 1;
        } else {
            failed += 1;
        }
    }
    println!("{passed} passed, {failed} failed");
    ExitCode::from(u8::from(failed > 0))
}

fn usual_least(group: &str) -> u64 {
    let mut others = LEAST_OF.iter().filter(|(start, _)| group.starts_with(start));
    others.next().map_or(LEAST, |(_, least)| *least)
}

/// The call, or none where help is asked for.
fn read_call() -> Result<Option<Call>, String> {
    let (mut text, mut least) = (String::new(), None);
    let mut arguments = env::args().skip(1);
    while let Some(argument) = arguments.next() {
        if argument == "--help" {
            return Ok(None);
        }
        let value = arguments.next().ok_or(USAGE)?;
        match argument.as_str() {
            "--group" => text = value,
            "--least" => least = Some(value.parse().map_err(|_| USAGE)?),
            _ => return Err(USAGE.to_string()),
        }
    }
    let groups: Vec<Group> = GROUPS.into_iter().filter(|(name, _)| name.contains(&text)).collect();
    if groups.is_empty() {
        let names: Vec<&str> = GROUPS.iter().map(|(name, _)| *name).collect();
        return Err(format!("there is no such group; the groups are\n{}", names.join("\n")));
    }
    Ok(Some(Call { groups, least }))
}
