//! Calls: words, statuses, where things are written.

use std::fs::{self, File};
use std::path::Path;
use std::process::{Command, Output, Stdio};

use crate::common::packed_table;
use crate::maildirs::Tree;

const IMPORT: &str = env!("CARGO_BIN_EXE_import");
const SCRIPT: &str = concat!(env!("CARGO_MANIFEST_DIR"), "/../../import");

pub fn run(words: &[&str]) -> Output {
    Command::new(IMPORT).args(words).stdin(Stdio::null()).output().expect("a run")
}

pub fn text(bytes: &[u8]) -> &str {
    str::from_utf8(bytes).expect("text")
}

/// A file of this test's own.
pub fn file(name: &str, bytes: &str) -> String {
    let path = Path::new(env!("CARGO_TARGET_TMPDIR")).join(name);
    fs::write(&path, bytes).expect("a file");
    path.to_str().expect("text").to_string()
}

#[test]
fn statuses() {
    let good = file("good.names", "a\nb/c\n");
    let output = run(&["names", &good]);
    assert_eq!(output.status.code(), Some(0));
    assert!(text(&output.stdout).ends_with("\nmailbox a exists\nmailbox b/c exists\n"));
    assert_eq!(text(&output.stderr), "import: 2 rows taken; 0 left out\n");

    let half = file("half.names", "a\nb%\n");
    let output = run(&["names", &half]);
    assert_eq!(output.status.code(), Some(1));
    assert_eq!(packed_table(text(&output.stdout)), b"\0\x01\xFF\x01a");
    let told = concat!(
        "import: left out: line 2: b%: name bytes are 20 to 7E (hex), without % and *\n",
        "import: 1 row taken; 1 left out\n",
    );
    assert_eq!(text(&output.stderr), told);

    let none = file("none.answer", "a OK\r\n");
    let output = run(&["answer", &none]);
    assert_eq!((output.status.code(), output.stdout.len()), (Some(2), 0));
    let told = format!("import: {none}: no answer: there is no LIST or LSUB line in it\n");
    assert_eq!(text(&output.stderr), told);
}

#[test]
fn wrong_calls() {
    let calls: [(&[&str], &str); 22] = [
        (&[], "maildir, mbox, answer, names, doveadm or cyrus is missing"),
        (&["names"], "the store is missing"),
        (&["names", ""], "the name of the store is empty"),
        (&["mh", "x"], "mh is none of maildir, mbox, answer, names, doveadm or cyrus"),
        (&["names", "x", "y"], "one store at a time, and y is one more"),
        (&["names", "x", "-o"], "-o takes a word"),
        (&["names", "x", "-o", "y", "-o", "z"], "-o stands twice"),
        (&["names", "x", "--loud"], "unknown option --loud"),
        (&["names", "x", "--delimiter", ".."], "a delimiter is one byte"),
        (&["names", "x", "--room", "large"], "--room takes program or library"),
        (&["answer", "x", "--delimiter", "."], "--delimiter and --subscribed stand beside names"),
        (&["maildir", "x", "--layout", "mh"], "--layout takes maildir++, fs or dbox"),
        (&["mbox", "x", "--layout", "fs"], "--layout stands beside maildir alone"),
        (&["names", "x", "--date", ""], "--date takes the date"),
        (&["names", "x", "--force"], "--force stands beside -o alone"),
        (&["names", "x", "--special-use", "Sent"], "--special-use takes WORD=NAME"),
        (&["names", "x", "--special-use", "sent="], "--special-use takes WORD=NAME"),
        (&["names", "x", "--special-use", "marked=a"], "--special-use takes WORD=NAME"),
        (&["mbox", "no-such-folder"], "cannot read no-such-folder: No such file"),
        (&["names", "no-such-file"], "cannot read no-such-file: No such file"),
        (&["maildir", "no-such-folder"], "cannot read no-such-folder: No such file"),
        (&["answer", "/"], "cannot read /: Is a directory"),
    ];
    for (words, message) in calls {
        let output = run(words);
        assert_eq!((output.status.code(), output.stdout.len()), (Some(2), 0), "{words:?}");
        let told = text(&output.stderr);
        assert!(told.starts_with(&format!("import: {message}")), "{words:?}: {told}");
    }
}

#[test]
fn output_that_fails() {
    let names = file("full.names", "a\n");
    let full = File::create("/dev/full").expect("a full device");
    let mut command = Command::new(IMPORT);
    let output = command.args(["names", &names]).stdout(full).output().expect("a run");
    assert_eq!(output.status.code(), Some(2));
    assert!(text(&output.stderr).contains("cannot write the output: No space left"));
}

/// A name that ends the line, colours the screen or turns the text round cannot do so.
#[test]
fn hostile_names_are_escaped() {
    let tree = Tree::new("hostile");
    tree.mailbox(b"")
        .mailbox(b".x\nmailbox y exists")
        .mailbox(b".\x1B[31mred")
        .file("subscriptions", b"");
    let output = run(&["maildir", tree.root.to_str().expect("text")]);
    assert_eq!(output.status.code(), Some(1));
    assert_eq!(packed_table(text(&output.stdout)), b"\0\x01\xFF\x05INBOX");
    let told = text(&output.stderr);
    assert!(
        !told.contains('\x1B') && told.lines().all(|line| line.starts_with("import: ")),
        "{told}"
    );
}

/// Text of which no line can be read is no answer without mailboxes.
#[test]
fn utf_16() {
    let path = Path::new(env!("CARGO_TARGET_TMPDIR")).join("utf-16.answer");
    fs::write(&path, b"\xFF\xFE*\0 \0L\0").expect("a file");
    let output = run(&["answer", path.to_str().expect("text")]);
    assert_eq!(output.status.code(), Some(2));
    assert!(text(&output.stderr).contains(": text in UTF-16"), "{}", text(&output.stderr));
}

/// `./import` says what it takes: every kind and every option, of which each is one.
#[test]
fn the_script() {
    let help = Command::new(SCRIPT).arg("--help").output().expect("a run");
    assert!(help.status.success() && help.stderr.is_empty());
    let help = text(&help.stdout);
    assert!(help.starts_with("usage: ./import "));
    let kinds =
        ["maildir DIR", "mbox DIR", "answer FILE", "names FILE", "doveadm FILE", "cyrus FILE"];
    let options = [
        "-o FILE",
        "--force",
        "--special-use WORD=NAME",
        "--layout L",
        "--delimiter C",
        "--subscribed FILE",
        "--walk",
        "--room program",
        "--room library",
        "--date TEXT",
    ];
    for words in kinds.iter().chain(&options) {
        let is_line = |line: &str| line.starts_with(&format!("  {words}"));
        assert!(help.lines().any(is_line), "{words}");
    }
    for option in options.map(|words| words.split(' ').next().unwrap_or_default()) {
        let output = run(&["names", "no-such-file", option]);
        assert!(!text(&output.stderr).contains("unknown option"), "{option}");
    }
}
