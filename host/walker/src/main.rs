//! `walker`: the frames of rows, edits and one walk on standard input, what the proved library answers to
//! the walk on standard output, in the form of the program of frames. `walker --build` does nothing: it is
//! there, and that is what `./run` asks.
//!
//! Status 1: input that is none of these, or input or output that fails; standard error says what.

use std::env;
use std::io::{self, Read, Write};
use std::process::ExitCode;
use std::thread;

use formats::frames::{REFUSAL, WALK};
use formats::hex::hex_of;
use serve::THREAD_STACK;
use walker::{walk, WalkFound};

fn main() -> ExitCode {
    let mut words = env::args_os().skip(1);
    match (words.next(), words.next()) {
        (None, _) => {}
        (Some(word), None) if word == session::BUILD => return ExitCode::SUCCESS,
        _ => return failed("usage: walker [--build] <FRAMES"),
    }
    match run() {
        Ok(()) => ExitCode::SUCCESS,
        Err(message) => failed(&message),
    }
}

/// Where standard error cannot be written to, there is the status alone.
fn failed(message: &str) -> ExitCode {
    let _ = writeln!(io::stderr(), "walker: {message}");
    ExitCode::FAILURE
}

fn run() -> Result<(), String> {
    let mut input = Vec::new();
    io::stdin().lock().read_to_end(&mut input).map_err(|error| format!("cannot read: {error}"))?;
    // In a thread, whose stack is known to have room for the library.
    let thread = thread::Builder::new().stack_size(THREAD_STACK).spawn(move || walk(&input));
    let thread = thread.map_err(|error| error.to_string())?;
    let walked = thread.join().map_err(|_| "the walk has failed".to_string())?;
    let bytes = match walked.map_err(|error| error.to_string())? {
        Ok(WalkFound { commands, names }) => {
            // One more than the ancestors of 512 names, which have 15 each at most.
            let count = u16::try_from(commands).map_err(|_| format!("{commands} commands"))?;
            [&[WALK], &count.to_be_bytes()[..], &names].concat()
        }
        Err(refusal) => vec![REFUSAL, refusal.number()],
    };
    let mut output = io::stdout().lock();
    let line = [hex_of(&bytes), b"\n".to_vec()].concat();
    let written = output.write_all(&line).and_then(|()| output.flush());
    written.map_err(|error| format!("cannot write: {error}"))
}
