//! Trouble with the machine: output that fails, and programs that fail.

use std::fs::{self, File};
use std::path::Path;
use std::process::{Command, Stdio};

use child::testing::script;

use crate::common::{run_with, second, told, SESSION};

/// Where scripts and sessions are written.
const FOLDER: &str = env!("CARGO_TARGET_TMPDIR");

#[test]
fn output_that_fails() {
    for (source, arguments) in
        [("walk\n".repeat(3), vec![]), ("walk\n".repeat(9_000), vec!["--frames"])]
    {
        let path = Path::new(FOLDER).join(format!("full-{}", source.len()));
        fs::write(&path, &source).expect("a session");
        let full = File::create("/dev/full").expect("a full device");
        let mut command = Command::new(SESSION);
        command.arg("--program").arg(second()).arg(&path).args(arguments).stdout(full);
        let output = command.stderr(Stdio::piped()).output().expect("a run");
        assert_eq!(output.status.code(), Some(1));
        let last = told(&output).lines().last().unwrap_or_default().to_string();
        assert!(last.starts_with("cannot write the output: No space left"), "{last}");
    }
}

#[test]
fn output_that_is_closed() {
    let path = Path::new(FOLDER).join("closed.session");
    fs::write(&path, "walk\n".repeat(9_000)).expect("a session");
    let mut command = Command::new(SESSION);
    command.arg("--program").arg(second()).arg(path).stdout(Stdio::piped()).stderr(Stdio::piped());
    let mut child = command.spawn().expect("a start");
    drop(child.stdout.take());
    let output = child.wait_with_output().expect("an end");
    assert_eq!(output.status.code(), Some(1));
    assert!(told(&output).contains("cannot write the output: Broken pipe"), "{}", told(&output));
}

/// Programs that fail, report or answer otherwise: status 1, and what they report is shown.
#[test]
fn programs_that_fail() {
    let answer = "570001";
    let programs = [
        ("dies", "read x; exit 4".to_string(), "exit status: 4"),
        ("killed", "read x; kill -9 $$".to_string(), "signal: 9 (SIGKILL)"),
        ("no-answer", "cat >/dev/null".to_string(), "no more answers"),
        (
            "odd",
            "read x; echo nonsense; cat >/dev/null".to_string(),
            "what it answers is no answer",
        ),
        ("kind", "read x; echo 41; cat >/dev/null".to_string(), "what it answers is no answer"),
        ("many", format!("cat >/dev/null; echo {answer}; echo {answer}"), "an answer too many"),
        (
            "reports",
            format!("cat >/dev/null; echo {answer}; echo 'luspemaro: cannot read' >&2"),
            "it reports: luspemaro: cannot read",
        ),
        (
            "reports-and-fails",
            format!("cat >/dev/null; echo {answer}; echo 'cannot write' >&2; exit 1"),
            "exit status: 1; it reports: cannot write",
        ),
    ];
    for (name, text, message) in programs {
        let program = script(FOLDER, &format!("program-{name}"), &text);
        let output = run_with(&program, "walk\n");
        assert_eq!(output.status.code(), Some(1), "{name}: {output:?}");
        let told = told(&output);
        let end = format!("program-{name}: after 1 of 1 items: {message}\n");
        assert!(told.ends_with(&end), "{name}: {told}");
    }
}

/// What was refused before a program failed is told all the same, and how far the session came.
#[test]
fn refused_before_it_failed() {
    let program = script(FOLDER, "program-half", "read x; echo 5206; read x; exit 1");
    let output = run_with(&program, "walk 9\nwalk\nwalk\n");
    assert_eq!(output.status.code(), Some(1));
    let told = told(&output);
    let lines: Vec<&str> = told.lines().collect();
    assert!(lines[0].starts_with("standard input: line 1: refused with 6: "), "{told}");
    assert!(lines[1].ends_with("program-half: after 2 of 3 items: exit status: 1"), "{told}");
}

/// A program that takes an edit which the second one refuses: what it does is not told as if it were
/// known, and that they differ is reported.
#[test]
fn programs_that_differ_in_an_edit() {
    let ok = "4173204F4B20646F6E650D0A";
    let program = script(FOLDER, "takes-all", &format!("while read x; do echo {ok}; done"));
    let output = run_with(&program, "subscribe \"\"\n");
    assert_eq!(output.status.code(), Some(3), "{}", told(&output));
    let differ =
        "it was answered, and by the second program refused with 14: unlawful name, or below \
                  a row with no inferiors";
    assert_eq!(told(&output), format!("standard input: line 1: the programs differ: {differ}\n"));
    let text = String::from_utf8(output.stdout).expect("text");
    let effect =
        "Answer     s OK done\nEffect     the programs differ: the second one refuses this\n";
    assert!(text.contains(effect), "{text}");
    let differs = format!("Differs    from the second program: {differ}\n");
    assert!(text.contains(&differs), "{text}");
}

/// What a program keeps is known from its own answers: after an edit that it accepts it takes no row, whatever the second
/// program says of the edit.
#[test]
fn edits_that_the_second_program_refuses() {
    let answers = ["4161204F4B20646F6E650D0A", "520D", "416F6B0D0A"];
    let text = answers.map(|answer| format!("read x; echo {answer}")).join("; ");
    let program = script(FOLDER, "accepts", &text);
    let output = run_with(&program, "command a SUBSCRIBE a//b\nmailbox Foo exists\nexpect 13\n");
    assert_eq!(output.status.code(), Some(3), "{}", told(&output));
    let text = String::from_utf8_lossy(&output.stdout);
    assert!(text.contains("the programs differ: the second one refuses this"), "{text}");
    assert!(text.contains("Refused    13: bad frame (as expected)"), "{text}");
    assert!(text.contains("Summary    0 of 1 rows"), "{text}");
}
