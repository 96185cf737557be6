//! Review files: what was accepted is there after any end, and nothing else.

use std::fs;
use std::path::Path;
use std::process::Command;

use crate::common::{
    answers, file, output_for, path, session_file, text, tunnel, word, Server, SERVE,
};
use crate::streams::Numbers;

const LSUB: &[u8] = b"l LSUB \"\" *\r\n";

/// The names that are subscribed, by the server.
fn subscribed(table: &Path, review: &Path) -> Vec<String> {
    let output = tunnel(&["--review", word(review), word(table)], LSUB);
    assert_eq!(output.status.code(), Some(0), "{}", text(&output.stderr));
    let told = answers(&output);
    told.lines()
        .filter_map(|line| line.strip_prefix("* LSUB () \"/\" "))
        .map(String::from)
        .collect()
}

#[test]
fn edits_are_made_again() {
    let (table, review) = (session_file(), path("review"));
    let before = subscribed(&table, &review);
    let edits = b"a SUBSCRIBE \"x \\\"y\"\r\nb SUBSCRIBE {3}\r\nMoo\r\nc UNSUBSCRIBE inbox\r\nd UNSUBSCRIBE Nothing\r\n\
                  e SUBSCRIBE \"*\"\r\nf SUBSCRIBE Moo\r\ng UNSUBSCRIBE {3}\r\na\r\n\r\n";
    let output = tunnel(&["--review", word(&review), word(&table)], edits);
    assert_eq!(answers(&output).matches(" OK done\r\n").count(), 6);
    let mut expected: Vec<String> = before.into_iter().filter(|name| name != "\"INBOX\"").collect();
    expected.extend(["\"Moo\"", "\"x \\\"y\""].map(String::from));
    expected.sort();
    assert_eq!(subscribed(&table, &review), expected);
    // Rows and entries, then a line for each edit that changed a row.
    let frames = fs::read_to_string(&review).expect("a file");
    let count = |start: &str| frames.lines().filter(|line| line.starts_with(start)).count();
    assert_eq!((count("4D"), count("4E"), count("4300")), (11, 2, 3), "{frames}");
    // The second program reads it as it is, and accepts each edit.
    let mut answered = Vec::new();
    second::frames::run(frames.as_bytes(), &mut answered).expect("a run");
    assert_eq!(text(&answered).lines().filter(|line| line.starts_with("41")).count(), 3);
}

/// A file of an earlier server, which wrote every accepted edit, also one that changed no row.
#[test]
fn edits_that_changed_no_row() {
    let (table, review) = (session_file(), path("review"));
    let before = subscribed(&table, &review);
    let mut frames = fs::read_to_string(&review).expect("a file");
    for line in ["a UNSUBSCRIBE Nothing", "a SUBSCRIBE New", "a SUBSCRIBE New"] {
        let frame = [b"\x43\0", line.as_bytes(), b"\r\n"].concat();
        frames += &format!("{}\n", text(&formats::hex::hex_of(&frame)));
    }
    fs::write(&review, &frames).expect("a file");
    assert_eq!(subscribed(&table, &review).len(), before.len() + 1);
    let told = text(&tunnel(&["--review", word(&review), word(&table)], LSUB).stderr);
    assert!(told.contains(": 1 edits are made again"), "{told}");
    assert_eq!(fs::read_to_string(&review).expect("a file"), frames);
}

/// A server that is killed at any moment keeps every edit that it has answered.
#[test]
fn a_crash_loses_no_accepted_edit() {
    let (table, review) = (session_file(), path("review"));
    let mut numbers = Numbers(7);
    let mut accepted = subscribed(&table, &review);
    for round in 0..8 {
        let server = Server::start(&table, &["--review", word(&review)]);
        let mut client = server.connect();
        for number in 0..numbers.below(6) {
            let name = format!("\"crash-{round}-{number}\"");
            let command = format!("a SUBSCRIBE {name}\r\n");
            assert_eq!(client.command(command.as_bytes()), [b"a OK done\r\n"]);
            accepted.push(name);
        }
        // More of them, of which some may be accepted when it is killed.
        for number in 0..20 {
            client.send(format!("b SUBSCRIBE late-{round}-{number}\r\n").as_bytes()).expect("open");
        }
        server.kill();
        let found = subscribed(&table, &review);
        assert!(accepted.iter().all(|name| found.contains(name)), "{accepted:?} {found:?}");
        accepted = found;
    }
}

/// Cut after any byte, the file holds the edits whose lines are whole, and takes more.
#[test]
fn a_file_that_was_cut() {
    let table = file("table.session", "mailbox INBOX exists\nnamespace personal \"\" \"/\"\n");
    let review = path("review");
    let edits = b"a SUBSCRIBE a\r\na SUBSCRIBE b\r\na SUBSCRIBE c\r\n";
    tunnel(&["--review", word(&review), word(&table)], edits);
    let whole = fs::read(&review).expect("a file");
    for length in 0..whole.len() {
        let cut = file("cut", &whole[..length]);
        let lines = whole[..length].iter().filter(|&&byte| byte == b'\n').count();
        let mut expected = ["\"a\"", "\"b\"", "\"c\""][..lines.saturating_sub(2)].to_vec();
        assert_eq!(subscribed(&table, &cut), expected, "{length} bytes");
        let output = tunnel(&["--review", word(&cut), word(&table)], b"a SUBSCRIBE d\r\n");
        assert_eq!(answers(&output), "a OK done\r\n");
        expected.push("\"d\"");
        assert_eq!(subscribed(&table, &cut), expected, "{length} bytes");
        fs::remove_file(cut).expect("a file");
    }
}

/// What is no review file of the table stays as it is.
#[test]
fn other_files() {
    let table = file("table.session", "mailbox INBOX exists\n");
    let heading = "4D0001FF05494E424F58\n";
    let [unlawful, listing] =
        [b"\x43\0a SUBSCRIBE \"*\"\r\n".as_slice(), b"\x43\0a LIST \"\" *\r\n"]
            .map(formats::hex::hex_of);
    let cases: [(String, i32, &str); 9] = [
        ("4D0001FF03466F6F\n".to_string(), 2, "line 1: it belongs to another table"),
        ("Notes".to_string(), 2, "line 1: it belongs to another table"),
        (format!("{heading}Notes"), 2, "line 2: no edit of reader 0"),
        (format!("{heading}4D0001FF03466F6F\n"), 2, "line 2: no edit of reader 0"),
        (format!("{heading}4303\n"), 2, "line 2: no edit of reader 0"),
        (format!("{heading}430061204E4F4F500D0A\n"), 2, "line 2: no edit of reader 0"),
        (format!("{heading}{}\n", text(&listing)), 2, "line 2: no edit of reader 0"),
        (format!("{heading}{}\n", text(&unlawful)), 3, "line 2: the edit is refused with 14"),
        (format!("{heading}4300{}", "0".repeat(5_000)), 2, "line 2: no edit of reader 0"),
    ];
    for (bytes, status, message) in cases {
        let review = file("review", &bytes);
        let output = tunnel(&["--review", word(&review), word(&table)], LSUB);
        let told = text(&output.stderr);
        assert_eq!(output.status.code(), Some(status), "{told}");
        assert!(told.contains(message) && output.stdout.is_empty(), "{told}");
        assert_eq!(fs::read_to_string(review).expect("a file"), bytes);
    }
    for (review, message) in [("/dev/full", "not a file"), ("/no/such/file", "No such file")] {
        let output = tunnel(&["--review", review, word(&table)], LSUB);
        assert_eq!(output.status.code(), Some(1));
        assert!(text(&output.stderr).contains(message), "{}", text(&output.stderr));
    }
}

#[test]
fn one_server_at_a_time() {
    let (table, review) = (session_file(), path("review"));
    let server = Server::start(&table, &["--review", word(&review)]);
    let output = tunnel(&["--review", word(&review), word(&table)], LSUB);
    assert_eq!(output.status.code(), Some(1));
    assert!(text(&output.stderr).contains("another server has it open"));
    drop(server);
    subscribed(&table, &review);
}

/// Where the disk is full, an edit is refused and the table is as it was; all else is answered.
#[test]
fn a_full_disk() {
    let (table, review) = (file("table.session", "mailbox INBOX exists\n"), path("review"));
    let mut input = Vec::new();
    for number in 0..100 {
        input.extend(format!("a{number} SUBSCRIBE name-{number}\r\n").into_bytes());
    }
    input.extend_from_slice(LSUB);
    let mut command = Command::new("/bin/bash");
    // No file may have more than 2,048 bytes; without the signal, writing fails.
    let script = "trap '' XFSZ; ulimit -f 2; exec \"$@\"";
    command.args(["-c", script, "bash", SERVE, "--review", word(&review), word(&table)]);
    let output = output_for(command, &input);
    assert_eq!(output.status.code(), Some(0));
    let told = answers(&output);
    let accepted =
        told.lines().filter(|line| line.ends_with(" OK done") && *line != "l OK done").count();
    let refused = told.matches(" NO [UNAVAILABLE] the review file cannot be written").count();
    assert!(accepted > 10 && refused > 10 && accepted + refused == 100, "{told}");
    assert_eq!(told.matches("* LSUB ").count(), accepted);
    assert_eq!(subscribed(&table, &review).len(), accepted);
    let frames = fs::read_to_string(&review).expect("a file");
    assert!(frames.ends_with('\n') && frames.lines().count() == 1 + accepted);
}
