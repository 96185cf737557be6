//! `replay [OPTION..] [TABLE] LOG`
//!
//! Replays a log over the proved library and prints an account, whose first line is the verdict. `./replay --help` says what
//! it takes. Status 0: all agree. 1: an answer differs. 2: the call or a file is wrong. 3: the log is refused with 13.
//! 4: trouble with the machine.

mod call;
mod kit_call;
mod messages;

use std::env;
use std::io::{self, Write};
use std::process::ExitCode;

use formats::date::now;
use luspemaro::Verdict;
use replay::{in_stack, page, replay_night, text, Account, Failure, Night, PageFacts, Progress};
use session::{sum_of_file, NewFile, Page};

use crate::call::Call;
use crate::kit_call::verify;
use crate::messages::tell;

/// The first word of a call of `./verify`.
const KIT: &str = "--kit";

const DIFFERS: u8 = 1;
const NOT_RUN: u8 = 2;
const REFUSED: u8 = 3;
const TROUBLE: u8 = 4;

fn main() -> ExitCode {
    match run() {
        Ok(status) => ExitCode::from(status),
        Err(Failure::NotRun(message)) => {
            tell(message);
            ExitCode::from(NOT_RUN)
        }
        Err(Failure::Trouble(message)) => {
            tell(message);
            ExitCode::from(TROUBLE)
        }
    }
}

fn run() -> Result<u8, Failure> {
    let mut words = env::args_os().skip(1).peekable();
    if words.next_if(|word| word == KIT).is_some() {
        return verify(words);
    }
    let call = Call::read(words).map_err(Failure::NotRun)?;
    let paged = call.page.as_ref().map(|page| start_page(&call, page)).transpose();
    let paged = paged.map_err(Failure::NotRun)?;
    let account = in_stack(|| replay_night(&call.night, &mut tell_progress))?;
    let mut output = io::stdout().lock();
    let written =
        output.write_all(text(&account, call.has_table).as_bytes()).and_then(|()| output.flush());
    if let (Some((file, facts)), Ok(())) = (paged, &written) {
        file.write(&page(&account, &facts)).map_err(Failure::Trouble)?;
    }
    written.map_err(|error| Failure::Trouble(format!("cannot write the output: {error}")))?;
    Ok(status_of(&account))
}

fn status_of(account: &Account) -> u8 {
    match account.followed.verdict {
        Verdict::Agree => 0,
        Verdict::Differs(_) => DIFFERS,
        Verdict::Refused(_) => REFUSED,
    }
}

/// The file of a report and what its page names; told before anything is run where it cannot be written, or must not be.
fn start_page(call: &Call, page: &Page) -> Result<(NewFile, PageFacts), String> {
    let Night { log, table, served, .. } = &call.night;
    let beside = Some(log.with_extension("log"));
    let in_use = [Some(log.clone()), table.clone(), served.clone(), beside];
    let facts = PageFacts {
        matter: page.matter.clone(),
        clock: now(),
        date: page.date.clone(),
        origin: call.origin.clone(),
        tool: env!("CARGO_PKG_VERSION"),
        tool_sum: env::current_exe().and_then(|path| sum_of_file(&path)).ok(),
    };
    Ok((page.create(in_use.into_iter().flatten())?, facts))
}

fn tell_progress(Progress { bytes, of, commands }: Progress) {
    let of = of.map_or(String::new(), |of| format!(" of {of}"));
    tell(format!("{bytes}{of} bytes, {commands} commands run again"));
}
