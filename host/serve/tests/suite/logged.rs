//! Logs: a line for each connection and command, beside the record.

use std::collections::BTreeMap;
use std::fs;
use std::path::Path;
use std::process::Command;

use crate::common::{
    answers, file, output_for, path, session_file, text, tunnel, word, Server, SERVE,
};

/// The parts of a line: time, connection, peer, frame, and what happened.
fn parts(log: &Path) -> Vec<[String; 5]> {
    let text = fs::read_to_string(log).expect("a log");
    assert!(text.ends_with('\n'), "{text}");
    let split = |line: &str| {
        let parts: Vec<String> = line.splitn(5, ' ').map(String::from).collect();
        parts.try_into().unwrap_or_else(|_| panic!("{line}"))
    };
    text.lines().map(split).collect()
}

/// What happened, in the order of the log.
fn happened(log: &Path) -> Vec<String> {
    parts(log).into_iter().map(|[.., what]| what).collect()
}

/// The word of each command that the log names, by the number of its frame.
fn logged(log: &Path) -> BTreeMap<String, String> {
    let mut words = BTreeMap::new();
    for [time, connection, peer, frame, what] in parts(log) {
        assert!(time.len() == 24 && time.ends_with('Z') && &time[10..11] == "T", "{time}");
        let is_of_server = connection == "-" && peer == "-";
        assert!(is_of_server || peer.starts_with("127.0.0.1:"), "{connection} {peer}");
        if frame != "-" {
            let word = what.split(' ').next().expect("a word").to_string();
            assert!(words.insert(frame, word).is_none(), "{what}");
        }
    }
    words
}

/// The word of each command of a record, by the number of its line.
fn recorded(record: &Path) -> BTreeMap<String, String> {
    let frames = fs::read_to_string(record).expect("a record");
    let commands = frames.lines().enumerate().filter(|(_, line)| line.starts_with("43"));
    // Longer words first, since one may stand in another.
    let words = ["SUBSCRIBE", "LOGOUT", "SELECT", "LSUB", "LIST"];
    let word_of = |line: &str| words.into_iter().find(|word| line.contains(&hex(word)));
    let named = |(at, line): (usize, &str)| {
        ((at + 1).to_string(), word_of(line).expect("a word").to_string())
    };
    commands.map(named).collect()
}

/// Every command of the record has its line in the log, which has the number of the line of its frame.
#[test]
fn record_and_log_side_by_side() {
    let (table, record, log) = (session_file(), path("record"), path("log"));
    let server = Server::start(&table, &["--record", word(&record), "--log", word(&log)]);
    let (mut first, mut second) = (server.connect(), server.connect());
    for turn in 0..5 {
        first.command(format!("a SUBSCRIBE n{turn}\r\n").as_bytes());
        second.command(b"b LSUB \"\" *\r\n");
        second.command(b"c SELECT INBOX\r\n");
        first.command(b"d LIST \"\" {1025}\r\n");
        first.command(b"e LIST (COLOUR) \"\" *\r\n");
    }
    first.command(b"f LOGOUT\r\n");
    first.rest();
    drop(second);
    assert_eq!(server.end_by("-TERM").0, Some(0));

    let logged = logged(&log);
    assert_eq!((logged.len(), logged), (5 * 4 + 1, recorded(&record)));

    let lines = happened(&log);
    let count = |what: &str| lines.iter().filter(|line| line.as_str() == what).count();
    assert!(lines[0].starts_with("start: ") && lines[0].contains("11 rows, "), "{lines:?}");
    assert_eq!(count("server PREAUTH"), 2);
    assert_eq!(count("SUBSCRIBE answered 11 bytes"), 5);
    assert_eq!(count("SELECT refused 5, server NO"), 5);
    assert_eq!(count("LIST refused 3 by the feeder"), 5);
    assert_eq!(count("LIST refused 6"), 5);
    assert_eq!(count("LOGOUT refused 5, server OK"), 1);
    assert_eq!((count("ended: LOGOUT"), count("the server ends")), (1, 1), "{lines:?}");
}

fn hex(word: &str) -> String {
    text(&formats::hex::hex_of(word.as_bytes()))
}

/// What a client sends forges no line; a log is added to, and a line without an end gets one.
#[test]
fn lines_are_whole() {
    let (table, log) = (session_file(), path("log"));
    fs::write(&log, "2026-01-01T00:00:00.000Z - - - cut of").expect("a file");
    let input = b"a \x1B[2J\x07x\r\nb NO\x7FOP\\x\r\nc NOOP\n\r\nd NOOP\n";
    for _ in 0..2 {
        tunnel(&["--log", word(&log), word(&table)], input);
    }
    let lines = happened(&log);
    let expected = [
        "server PREAUTH",
        "\\x1B[2J\\x07x refused 5",
        "NO\\x7FOP\\\\x refused 5, server NO",
        "NOOP refused 3",
        "server BAD: a line ended in LF without CR",
        "ended: closed by the client",
        "the server ends",
    ];
    assert_eq!(lines[0], "cut of");
    assert!(lines[1].starts_with("start: ") && lines[9].starts_with("start: "), "{lines:?}");
    assert_eq!(lines[2..9], expected);
    assert_eq!(lines[10..], expected);
    assert!(parts(&log)[2..9].iter().all(|[_, connection, peer, ..]| {
        (connection == "1" && peer == "tunnel") || (connection == "-" && peer == "-")
    }));
}

/// A file that is no log is left as it is: the table itself, a record, the review file that is open.
#[test]
fn other_files() {
    let (table, review) = (session_file(), path("review"));
    let frames = file("record", "4D0001FF05494E424F58\n");
    for (log, message) in [
        (&table, "it is there and is no log"),
        (&frames, "it is there and is no log"),
        (&review, "another server has it open"),
    ] {
        let before = fs::read(log).ok();
        let words = ["--review", word(&review), "--log", word(log), word(&table)];
        let output = tunnel(&words, b"a NOOP\r\n");
        let told = text(&output.stderr);
        assert_eq!(output.status.code(), Some(1), "{told}");
        assert!(told.contains(message) && output.stdout.is_empty(), "{told}");
        assert!(log == &review || fs::read(log).ok() == before);
    }
    assert!(fs::read_to_string(&review).expect("a file").lines().all(|line| line.starts_with("4")));
}

/// Where the disk is full, a command is not answered and an edit is not made; what is there is whole.
#[test]
fn a_full_disk() {
    let (table, log, review) = (session_file(), path("log"), path("review"));
    let mut input = Vec::new();
    for number in 0..100 {
        input.extend(format!("a{number} SUBSCRIBE name-{number}\r\n").into_bytes());
    }
    // The line of this refusal is longer than those of the commands, so there is no room for it either.
    input.extend(format!("y {} {{1025}}\r\nz NOOP\r\n", "X".repeat(40)).into_bytes());
    let mut command = Command::new("/bin/bash");
    // No file may have more than 4,096 bytes, of which the review file needs fewer.
    let script = "trap '' XFSZ; ulimit -f 4; exec \"$@\"";
    let words = ["--log", word(&log), "--review", word(&review), word(&table)];
    command.args(["-c", script, "bash", SERVE]).args(words);
    let output = output_for(command, &input);
    let told = answers(&output);
    let accepted = told.lines().filter(|line| line.ends_with(" OK done")).count();
    let refused = told.matches(" NO [UNAVAILABLE] the log cannot be written").count();
    assert!(accepted > 5 && refused > 5 && accepted + refused == 100, "{told}");
    assert!(told.ends_with("\r\n* BYE the log cannot be written\r\n"), "{told}");
    let logged = happened(&log);
    let answered = logged.iter().filter(|line| line.starts_with("SUBSCRIBE answered ")).count();
    let kept = fs::read_to_string(&review).expect("a file");
    let edits = kept.lines().filter(|line| line.starts_with("4300")).count();
    assert_eq!((answered, edits), (accepted, accepted));
    // All is answered. Whether the last line, the shortest of all, still fits hangs on the length of the table's path.
    let is_whole = fs::read_to_string(&log).expect("a file").ends_with(" the server ends\n");
    assert_eq!(output.status.code(), Some(i32::from(!is_whole)));
    assert!(text(&output.stderr).contains("serve: the log: File too large"));
}
