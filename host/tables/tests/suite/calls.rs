//! Calls: words, statuses, standard input, and output that fails.

use std::ffi::OsStr;
use std::fs::File;
use std::io::Write;
use std::os::unix::ffi::OsStrExt;
use std::process::{Command, Stdio};

use crate::common::{file, parts, run, TABLES};

const SCRIPT: &str = concat!(env!("CARGO_MANIFEST_DIR"), "/../../compare");
const SESSION: &str = "mailbox a exists\n";

#[test]
fn wrong_calls() {
    let session = file("call.session", SESSION);
    let calls: [(&[&str], &str); 11] = [
        (&[], "two tables are compared, and 0 are named"),
        (&[&session], "two tables are compared, and 1 are named"),
        (&[&session, &session, &session], "two tables are compared, and 3 are named"),
        (&["-", "-"], "standard input is one of the two tables at most"),
        (&["", &session], "the name of a table is empty"),
        (&["session:", &session], "the name of a table is empty"),
        (&["--jsn", &session, &session], "unknown option --jsn"),
        (&["--kind-a"], "--kind-a takes a kind"),
        (
            &["--kind-a", "mh", &session, &session],
            "mh is no kind; the kinds are session, frames, packed, answer, maildir, mbox, names, \
             doveadm, cyrus",
        ),
        (&["--kind-b", "packed", "--kind-b", "packed"], "--kind-b stands twice"),
        (&["--\x1b[31m", &session, &session], "unknown option --\\x1B[31m"),
    ];
    for (words, message) in calls {
        let (status, text, told) = run(words);
        assert_eq!((status, text.as_str()), (2, ""), "{words:?}");
        let told_first = format!("compare: {message}\ncompare: usage: compare ");
        assert!(told.starts_with(&told_first), "{words:?}: {told}");
    }
}

#[test]
fn tables_that_cannot_be_read() {
    let session = file("read.session", SESSION);
    for input in ["no-such-table", "session:no-such-table", "maildir:no-such-table"] {
        for words in [[input, &session], [&session, input]] {
            let (status, text, told) = run(&words);
            assert_eq!((status, text.as_str()), (2, ""), "{input}");
            let starts = ["compare: no-such-table: ", "compare: cannot read no-such-table: "];
            assert!(starts.iter().any(|start| told.starts_with(start)), "{told}");
        }
    }
    let name = OsStr::from_bytes(b"odd\xFF\x1B[31m");
    let output = Command::new(TABLES).arg(name).arg(&session).output().expect("a run");
    let (status, _, told) = parts(output);
    assert_eq!(status, 2);
    assert!(told.starts_with("compare: cannot read odd\\xFF\\x1B[31m: "), "{told}");
}

#[test]
fn standard_input() {
    let session = file("stdin.session", SESSION);
    for (words, input, status) in [
        (["-", &session], SESSION, 0),
        ([&session, "session:-"], SESSION, 0),
        ([&session, "-"], "mailbox b exists\n", 1),
        ([&session, "-"], "", 2),
    ] {
        let mut command = Command::new(TABLES);
        command.args(words).stdin(Stdio::piped()).stdout(Stdio::piped()).stderr(Stdio::piped());
        let mut child = command.spawn().expect("a start");
        child.stdin.take().expect("an input").write_all(input.as_bytes()).expect("an open input");
        let (given, text, told) = parts(child.wait_with_output().expect("an end"));
        assert_eq!(given, status, "{words:?}: {text}{told}");
    }
}

/// A path that starts as a kind, and one that starts with a dash.
#[test]
fn odd_paths() {
    let session = file("odd.session", SESSION);
    let folder = env!("CARGO_TARGET_TMPDIR");
    file("session:x", SESSION);
    file("-x", SESSION);
    for words in [
        vec!["./session:x", &session],
        vec!["--kind-a", "session", "session:x", &session],
        vec!["--", "-x", &session],
    ] {
        let output = Command::new(TABLES).args(&words).current_dir(folder).output().expect("a run");
        assert_eq!(parts(output).0, 0, "{words:?}");
    }
}

#[test]
fn output_that_fails() {
    let session = file("full.session", SESSION);
    for form in [vec![], vec!["--json"]] {
        let full = File::create("/dev/full").expect("a full device");
        let mut command = Command::new(TABLES);
        command.args(form).args([&session, &session]).stdout(full).stderr(Stdio::piped());
        let output = command.output().expect("a run");
        let (status, _, told) = parts(output);
        assert_eq!(status, 2);
        assert!(told.starts_with("compare: cannot write the output: No space left"), "{told}");
    }
}

/// `./compare` says what it takes.
#[test]
fn the_script() {
    let help = Command::new(SCRIPT).arg("--help").output().expect("a run");
    assert!(help.status.success() && help.stderr.is_empty());
    assert!(help.stdout.starts_with(b"usage: ./compare "));
    let call = format!("{SCRIPT} --help >&-");
    let closed = Command::new("/bin/sh").args(["-c", &call]).output().expect("a run");
    let (status, _, told) = parts(closed);
    assert_eq!((status, told.as_str()), (2, "compare: standard output is closed\n"));
}
