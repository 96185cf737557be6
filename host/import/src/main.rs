//! `import maildir DIR | mbox DIR | answer FILE | names FILE | doveadm FILE | cyrus FILE`, with the options
//! of `./import`.
//!
//! Writes a session file with the mailboxes of a store, and reports on standard error what was left out.

use std::env;
use std::fmt::Display;
use std::io::{self, Write};
use std::process::ExitCode;

use formats::date::now;
use import::{
    read_call, read_store, rows_text, session_text, Call, Gathered, StoreError, Told, USAGE,
};

/// Something was left out.
const LEFT_OUT: u8 = 1;
/// The call is wrong, the store cannot be read, or the file cannot be written.
const FAILED: u8 = 2;

fn main() -> ExitCode {
    match run() {
        Ok(status) => ExitCode::from(status),
        Err(message) => {
            tell(message);
            ExitCode::from(FAILED)
        }
    }
}

fn run() -> Result<u8, String> {
    let call =
        read_call(env::args_os().skip(1)).map_err(|error| format!("{error}\nimport: {USAGE}"))?;
    if let Some(output) = &call.output {
        output.check(&call.store)?;
    }
    let mut told = Told::default();
    let mut contents =
        read_store(&call.store, &mut told).map_err(|error: StoreError| error.to_string())?;
    contents.all_found.extend(call.added.iter().cloned());
    contents.made_from.added.clone_from(&call.added);
    let rows = Gathered::of(&contents.all_found, &mut told).into_rows(call.room, &mut told);
    let date = call.date.clone().unwrap_or_else(now);
    write_session(&call, &session_text(&contents.made_from, &date, &rows, &told, call.asked))?;
    for note in told.all_notes() {
        tell(format!("note: {note}"));
    }
    for line in told.all_left_out() {
        tell(format!("left out: {line}"));
    }
    tell(format!("{} taken; {} left out", rows_text(&rows), told.all_left_out().len()));
    Ok(if told.is_all_taken() { 0 } else { LEFT_OUT })
}

/// Where standard error cannot be written to, the status alone tells.
fn tell(message: impl Display) {
    let _ = writeln!(io::stderr(), "import: {message}");
}

fn write_session(call: &Call, text: &str) -> Result<(), String> {
    if let Some(output) = &call.output {
        return output.write(text);
    }
    let mut output = io::stdout().lock();
    let written = output.write_all(text.as_bytes()).and_then(|()| output.flush());
    written.map_err(|error| format!("cannot write the output: {error}"))
}
