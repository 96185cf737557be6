//! `session --program PATH [FILE] [--frames | --json | --csv] [--walker PATH] [--report PAGE ..]`
//!
//! Sends the session in FILE, or on standard input, to a program of frames, and prints commands
//! and answers as text; with `--frames`, the frames and answers as they were sent; with `--json` or
//! `--csv`, all of it as data for other tools. With `--report`, a page about all of it is written too.
//! The walker walks through the library, for `walk large`. The form of a session file stands in the
//! library. Its statuses are those of `./run`.

mod call;

use std::env;
use std::fmt::Display;
use std::io::{self, BufWriter, Write};
use std::process::ExitCode;

use child::find_program;
use formats::date::now;
use formats::error::SessionError;
use formats::session::Session;
use formats::source::Source;
use formats::text::path_text;
use session::{
    make_ready, run_reported, run_session, sum_of_file, Facts, Form, Library, NewFile, Page,
    Programs, Report, RunError, RunSummary, Versions,
};

use crate::call::{files_in_use, source_name, Call};

const NO_WALKER: &str = "walk large needs the walker of ./run, and none is given";
const CR_FRAMES: &str =
    "the lines of this file of frames end in CR LF; a frame ends with LF alone, so CR is \
                         another character and such a frame is bad (13)";

/// Trouble with the machine: no program, a program that fails, output that fails.
const TROUBLE: u8 = 1;
/// The call or the file is wrong, and nothing was run.
const NOT_RUN: u8 = 2;
/// Something was refused, or is not as the second program answers it.
const REFUSED: u8 = 3;

/// What is told on standard error, and the status.
struct Failure {
    status: u8,
    message: String,
}

impl Failure {
    fn trouble(message: String) -> Failure {
        Failure { status: TROUBLE, message }
    }

    fn not_run(message: String) -> Failure {
        Failure { status: NOT_RUN, message }
    }
}

fn main() -> ExitCode {
    match run() {
        Ok(status) => ExitCode::from(status),
        Err(failure) => {
            tell(failure.message);
            ExitCode::from(failure.status)
        }
    }
}

fn run() -> Result<u8, Failure> {
    let call = read_call()?;
    let session = check_session(&call)?;
    let paged = call.page.as_ref().map(|page| start_page(&call, page, &session)).transpose()?;
    let programs = Programs {
        frames: call.program.clone(),
        proved_sum: call.origin.proved_sum.clone(),
        walker: call.walker.clone(),
        library: check_walker(&call, &session)?,
    };
    let mut report = Report::default();
    let mut output = BufWriter::new(io::stdout().lock());
    let (summary, result) = match paged {
        Some(_) => run_reported(programs, &session, call.form, &mut output, &mut report),
        None => run_session(programs, &session, call.form, &mut output),
    };
    // What was printed so far is seen before anything is told.
    let result = result.and_then(|()| output.flush().map_err(RunError::Output));
    drop(output);
    tell_summary(&call, &summary);
    let stopped = result.err().map(|error| stopped_text(&call, &session, &summary, error));
    if let Some((file, facts)) = paged {
        let text = report.page(&facts, &summary, stopped.as_deref());
        file.write(&text).map_err(Failure::trouble)?;
    }
    match stopped {
        Some(message) => Err(Failure::trouble(message)),
        None if summary.is_all_answered() => Ok(0),
        None => Ok(REFUSED),
    }
}

fn stopped_text(call: &Call, session: &Session, summary: &RunSummary, error: RunError) -> String {
    match error {
        RunError::Output(error) => format!("cannot write the output: {error}"),
        RunError::Program(error) => {
            let place = format!("after {} of {} items", summary.sent(), session.length);
            format!("{}: {place}: {error}", path_text(&call.program))
        }
        RunError::Session(error) => session_text(call, &error),
    }
}

/// The file of a report and what its page names; told before anything is run where it cannot be
/// written, or must not be.
fn start_page(call: &Call, page: &Page, session: &Session) -> Result<(NewFile, Facts), Failure> {
    let tool_sum = env::current_exe().and_then(|path| sum_of_file(&path)).ok();
    let facts = Facts {
        matter: page.matter.clone(),
        clock: now(),
        date: page.date.clone(),
        session: source_name(call),
        session_sum: session.sum(),
        versions: Versions {
            commit: call.origin.commit.clone(),
            sources: call.origin.sources_sum.clone(),
            tool: env!("CARGO_PKG_VERSION"),
            tool_sum,
        },
    };
    let file = page.create(files_in_use(call)).map_err(Failure::not_run)?;
    Ok((file, facts))
}

/// Tells what was refused.
fn tell_summary(call: &Call, summary: &RunSummary) {
    if call.form == Form::Frames {
        tell(summary);
    }
    let (troubles, more) = summary.troubles();
    for trouble in troubles {
        tell(format!("{}: {trouble}", source_name(call)));
    }
    if more > 0 {
        tell(format!("{}: and {more} more", source_name(call)));
    }
}

/// Where standard error cannot be written to, the status alone tells.
fn tell(message: impl Display) {
    let _ = writeln!(io::stderr(), "{message}");
}

fn read_call() -> Result<Call, Failure> {
    let call = Call::read().map_err(|usage| Failure::not_run(usage.to_string()))?;
    let program = find_program(&call.program).map_err(Failure::trouble)?;
    Ok(Call { program, ..call })
}

/// The session, every line of it checked. A session without items is none to run, but no fault.
fn check_session(call: &Call) -> Result<Session, Failure> {
    let source = match &call.file {
        Some(file) => Source::of_path(file),
        None => Source::of_stream(io::stdin().lock()),
    };
    let session = source.map_err(SessionError::from).and_then(Session::check);
    let session = session.map_err(|error| Failure::not_run(session_text(call, &error)))?;
    if session.length == 0 {
        tell(format!("{}: no items, so there is nothing to run", source_name(call)));
    }
    if session.has_cr_frames {
        tell(format!("{}: {CR_FRAMES}", source_name(call)));
    }
    Ok(session)
}

/// Where the session has a `walk large`, the walker is made ready before anything is run, and says what
/// its library is.
fn check_walker(call: &Call, session: &Session) -> Result<Option<Library>, Failure> {
    match &call.walker {
        _ if !session.has_large_walk => Ok(None),
        None => Err(Failure::not_run(NO_WALKER.to_string())),
        Some(walker) => make_ready(walker).map_err(Failure::trouble),
    }
}

fn session_text(call: &Call, error: &SessionError) -> String {
    let name = source_name(call);
    match error {
        SessionError::Unreadable(_) => format!("cannot read {name}: {error}"),
        SessionError::Lines { .. } => {
            let lines: Vec<String> =
                error.to_string().lines().map(|line| format!("{name}: {line}")).collect();
            lines.join("\n")
        }
    }
}
