//! `host/bench/dovecot`, with other servers in Dovecot's place: our own on both sides, and some that do not do as asked.

use std::env;
use std::path::PathBuf;
use std::process::{Command, Output};

use child::testing::{output_for, script};

const SCRIPT: &str = concat!(env!("CARGO_MANIFEST_DIR"), "/dovecot");
const FOLDER: &str = env!("CARGO_TARGET_TMPDIR");
/// The rows of the script.
const ROWS: usize = 8;
/// Servers that answer nothing, greet otherwise, refuse every command, and list no name.
const SILENT: &str = "printf '* PREAUTH here\\r\\n'; exec cat >/dev/null";
const GREETS_OTHERWISE: &str = "printf '* OK here\\r\\n'; exec cat >/dev/null";
const REFUSES: &str =
    "printf '* PREAUTH here\\r\\n'; while read -r line; do printf 'w BAD no\\r\\n'; done";
const LISTS_NOTHING: &str =
    "printf '* PREAUTH here\\r\\n'; while read -r line; do printf 'w OK done\\r\\n'; done";

/// The server, built in the folder of this test's build where it is not there.
fn serve() -> PathBuf {
    let test = env::current_exe().expect("the path of the test");
    let folder = test.ancestors().nth(2).expect("the folder of the build");
    let mut command = Command::new(env!("CARGO"));
    command.args(["build", "--quiet", "--offline", "-j1", "--package", "serve"]);
    if folder.ends_with("release") {
        command.arg("--release");
    }
    let target = folder.parent().expect("the folder of the builds");
    let built = command.arg("--target-dir").arg(target).current_dir(env!("CARGO_MANIFEST_DIR"));
    assert!(built.status().expect("cargo").success());
    folder.join("serve")
}

fn compared(words: &[&str]) -> Output {
    let mut command = Command::new(SCRIPT);
    command.env("SERVE", serve()).args(["--rounds", "1"]).args(words);
    output_for(command, b"")
}

fn text(bytes: &[u8]) -> String {
    String::from_utf8_lossy(bytes).into_owned()
}

/// The status and what is printed, on both outputs, where such a script is the other server.
fn against(name: &str, server: &str, words: &[&str]) -> (Option<i32>, String) {
    let path = script(FOLDER, name, server);
    let path = path.to_str().expect("text");
    let output = compared(&[&["--against", path], words].concat());
    (output.status.code(), text(&output.stdout) + &text(&output.stderr))
}

#[test]
fn not_installed() {
    let output = compared(&["--imap", "/no/such/imap"]);
    let expected = "dovecot: not installed, so nothing is compared\n";
    assert_eq!((output.status.code(), text(&output.stdout).as_str()), (Some(0), expected));
    assert_eq!(text(&output.stderr), "");
}

#[test]
fn our_server_on_both_sides() {
    let command = format!("{} TABLE", serve().to_str().expect("text"));
    let output = compared(&["--against", &command]);
    let printed = text(&output.stdout);
    assert_eq!((output.status.code(), text(&output.stderr)), (Some(0), String::new()), "{printed}");
    let rows: Vec<&str> = printed.lines().skip(1).collect();
    assert_eq!(rows.len(), ROWS, "{printed}");
    for row in rows {
        let ratio: f64 = row.rsplit(' ').next().and_then(|word| word.parse().ok()).expect(row);
        assert!(ratio > 0.05 && ratio < 20.0, "{row}");
    }
}

#[test]
fn a_server_that_is_late() {
    let (status, printed) = against("silent", SILENT, &["--only", "NOOP", "--patience", "0.5"]);
    assert_eq!(status, Some(0), "{printed}");
    assert!(printed.lines().any(|line| line.starts_with("NOOP") && line.contains(" over ")));
}

#[test]
fn a_server_that_does_otherwise() {
    let (status, printed) = against("greets", GREETS_OTHERWISE, &["--only", "NOOP"]);
    assert!(status == Some(1) && printed.contains("greets with b'* OK here"), "{printed}");
    let (status, printed) = against("refuses", REFUSES, &["--only", "NOOP"]);
    assert!(status == Some(1) && printed.contains("answers b'w BAD no"), "{printed}");
    let (status, printed) = against("nothing", LISTS_NOTHING, &["--only", "LIST \"\" *"]);
    assert!(status == Some(1) && printed.contains(", 0 names and 512"), "{printed}");
}
