//! `tables [--json] [--kind-a KIND] [--kind-b KIND] A B`, behind `./compare`.
//!
//! Prints what two tables differ in. Status 0: they are alike, and nothing was left out of either. 1: they
//! differ, or something was left out. 2: the call is wrong, a table cannot be read or its kind cannot be
//! seen, or the output fails.

use std::env;
use std::io::{self, Write};
use std::process::ExitCode;

use tables::{compare, json_text, read_call, read_side, text, USAGE};

const NOT_ALIKE: u8 = 1;
const FAILED: u8 = 2;

fn main() -> ExitCode {
    match run() {
        Ok(status) => ExitCode::from(status),
        Err(message) => {
            // Where standard error cannot be written to, there is the status alone.
            let _ = writeln!(io::stderr(), "compare: {message}");
            ExitCode::from(FAILED)
        }
    }
}

fn run() -> Result<u8, String> {
    let call =
        read_call(env::args_os().skip(1)).map_err(|error| format!("{error}\ncompare: {USAGE}"))?;
    let comparison = compare(read_side(&call.a)?, read_side(&call.b)?);
    let output = if call.is_json { json_text(&comparison) } else { text(&comparison) };
    let mut stdout = io::stdout().lock();
    let written = stdout.write_all(output.as_bytes()).and_then(|()| stdout.flush());
    written.map_err(|error| format!("cannot write the output: {error}"))?;
    Ok(if comparison.is_alike() { 0 } else { NOT_ALIKE })
}
