//! Running sessions in the second program.

use std::path::{Path, PathBuf};
use std::process::{Command, Output};

use child::testing::{example, output_for};
use formats::error::SessionError;
use formats::session::Session;
use formats::source::Source;
use session::{run_session, Form};

/// The reader of sessions.
pub const SESSION: &str = env!("CARGO_BIN_EXE_session");

/// The second program.
pub fn second() -> PathBuf {
    example("second-of-session")
}

pub fn check(source: impl AsRef<[u8]>) -> Result<Session, SessionError> {
    Session::check(Source::of_bytes(source.as_ref()))
}

/// All that is printed.
pub fn whole_text(source: impl AsRef<[u8]>, form: Form) -> String {
    let session = check(source).expect("a session");
    let mut output = Vec::new();
    run_session(&second(), &session, form, &mut output).1.expect("a run");
    String::from_utf8(output).expect("text")
}

/// What is printed before the summary, which text ends with and frames do not have.
pub fn printed(source: impl AsRef<[u8]>, form: Form) -> String {
    let text = whole_text(source, form);
    match text.rsplit_once("\nSummary    ") {
        Some((before, summary)) if form == Form::Text && summary.lines().count() == 1 => {
            before.to_string()
        }
        _ => {
            assert_eq!(form, Form::Frames, "no summary at the end of\n{text}");
            text
        }
    }
}

/// The last line, without its label.
pub fn summary(source: impl AsRef<[u8]>) -> String {
    let text = whole_text(source, Form::Text);
    let last = text.lines().last().and_then(|line| line.strip_prefix("Summary    "));
    last.expect("a summary").to_string()
}

/// The output of the reader of sessions for a source on its standard input.
pub fn run_on(source: impl AsRef<[u8]>) -> Output {
    run_with(&second(), source)
}

/// The same with another program of frames.
pub fn run_with(program: &Path, source: impl AsRef<[u8]>) -> Output {
    let mut command = Command::new(SESSION);
    command.arg("--program").arg(program);
    output_for(command, source.as_ref())
}

/// What was told on standard error.
pub fn told(output: &Output) -> String {
    String::from_utf8(output.stderr.clone()).expect("text")
}
