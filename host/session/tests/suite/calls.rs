//! Calls of the reader of sessions and of `./run`.

use std::process::Command;

use child::testing::script;

use crate::common::{run_on, run_with, second, SESSION};

const RUN: &str = concat!(env!("CARGO_MANIFEST_DIR"), "/../../run");
const FOLDER: &str = concat!(env!("CARGO_MANIFEST_DIR"), "/../sessions");
const FILE: &str = concat!(env!("CARGO_MANIFEST_DIR"), "/../sessions/customers.session");

#[test]
fn wrong_calls() {
    let bad_line = run_on("walk\nwalk home\n");
    assert_eq!(bad_line.status.code(), Some(2));
    assert!(bad_line.stdout.is_empty());
    let message = String::from_utf8(bad_line.stderr).expect("text");
    assert_eq!(message, "standard input: line 2: unknown option of a walk \"home\"; known are remote, special-use, without-subscribed and 0 to 255; large stands first\n");

    let second = second();
    let second = second.to_str().expect("text");
    let calls: [(&[&str], i32, &str); 6] = [
        (&[], 2, "usage: session"),
        (&["--program"], 2, "usage: session"),
        (&["--program", second, "--help"], 2, "usage: session"),
        (&["--program", second, "no-such.session"], 2, "cannot read no-such.session: "),
        (&["--program", "no-such-program", FILE], 1, "cannot find no-such-program: "),
        (&["--program", SESSION, FILE], 1, "it reports: usage: session"),
    ];
    for (arguments, status, message) in calls {
        let output = Command::new(SESSION).args(arguments).output().expect("a run");
        assert_eq!(output.status.code(), Some(status), "{arguments:?}");
        let text = String::from_utf8(output.stderr).expect("text");
        assert!(text.contains(message), "{arguments:?}: {text}");
    }
}

/// `./run` tells a wrong call before it proves or builds anything.
#[test]
fn wrong_calls_of_run() {
    let calls: [(&[&str], i32, &str); 18] = [
        (&["--json", "--csv"], 2, "run: one of --frames, --json and --csv at a time\n"),
        (&["--report"], 2, "run: --report takes the path of the page to write\n"),
        (&["--report", "x.html", "--date"], 2, "run: --date takes a text for the report\n"),
        (&["--report", "x.html", "--case", ""], 2, "run: --case takes a text for the report\n"),
        (&["--case", "x", "--case", "y"], 2, "run: --case stands twice\n"),
        (&["--report", "x", "--report", "y"], 2, "run: --report stands twice\n"),
        (&["--date", "x"], 2, "run: this belongs to a report, and --report is missing: --date \n"),
        (&["--force"], 2, "run: this belongs to a report, and --report is missing: --force \n"),
        (&["--report", FILE, FILE], 2, "run: '"),
        (&["--frame"], 2, "run: unknown option --frame\n"),
        (&["-x", FILE], 2, "run: unknown option -x\n"),
        (&["no such.session"], 2, "run: there is no file 'no such.session'\n"),
        (&[""], 2, "run: the name of the file is empty\n"),
        (&[FOLDER], 2, "run: '"),
        (&[FILE, "other"], 2, "run: one file at a time, and 'other' is another one\n"),
        (&["--", FILE, "other"], 2, "run: one file at a time\n"),
        (&["--program"], 2, "run: --program takes the path of a program\n"),
        (&["--program", "no-such-program"], 1, "run: there is no program 'no-such-program'\n"),
    ];
    for (arguments, status, message) in calls {
        let output = Command::new(RUN).args(arguments).output().expect("a run");
        assert_eq!(output.status.code(), Some(status), "{arguments:?}");
        assert!(output.stdout.is_empty(), "{arguments:?}");
        let text = String::from_utf8(output.stderr).expect("text");
        assert!(text.starts_with(message), "{arguments:?}: {text}");
    }
    let help = Command::new(RUN).arg("--help").output().expect("a run");
    assert!(help.status.success() && help.stderr.is_empty());
    assert!(help.stdout.starts_with(b"usage: ./run "));
}

/// Bytes that move the cursor or end a line stand as escapes in what is told of options and file names.
#[test]
fn escaped_calls() {
    let calls: [(&[&str], i32, &str); 5] = [
        (&["--\x1B[31mx\n"], 2, "run: unknown option --\\x1B[31mx\\x0A\n"),
        (&["no\x1Bfile"], 2, "run: there is no file 'no\\x1Bfile'\n"),
        (&[FILE, "a\\x41\r"], 2, "run: one file at a time, and 'a\\\\x41\\x0D' is another one\n"),
        (&["--program", "\x07", FILE], 1, "run: there is no program '\\x07'\n"),
        (&["\u{9b}\u{202e}"], 2, "run: there is no file '\\xC2\\x9B\\xE2\\x80\\xAE'\n"),
    ];
    for (arguments, status, message) in calls {
        let output = Command::new(RUN).args(arguments).output().expect("a run");
        assert_eq!(output.status.code(), Some(status), "{arguments:?}");
        let text = String::from_utf8(output.stderr).expect("text");
        assert!(text.starts_with(message), "{arguments:?}: {text}");
        assert!(!text.contains(|sign: char| sign != '\n' && sign.is_control()), "{text:?}");
    }
    let missing = ["--program", "no\x1Bprogram", FILE];
    let output = Command::new(SESSION).args(missing).output().expect("a run");
    assert!(output.stderr.starts_with(b"cannot find no\\x1bprogram: "), "{output:?}");
    let folder = env!("CARGO_TARGET_TMPDIR");
    let program = script(folder, "stops\x1B[31m", "read x; exit 4");
    let output = run_with(&program, "walk\n");
    let text = String::from_utf8(output.stderr).expect("text");
    assert!(text.contains("stops\\x1B[31m: after 1 of 1 items: exit status: 4"), "{text}");
}

/// Progress goes to standard error and not into the session.
#[test]
fn long_sessions() {
    let short = run_on("walk\n".repeat(2_000));
    assert!(short.status.success() && short.stderr.is_empty());
    let long = run_on("walk\n".repeat(2_001));
    assert!(long.status.success());
    let progress = String::from_utf8(long.stderr).expect("text");
    assert_eq!(progress, "1000 of 2001 items\n2000 of 2001 items\n");
}
