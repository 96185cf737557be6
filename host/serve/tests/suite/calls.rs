//! Calls: their statuses and what is told.

use std::path::Path;

use serve::Rooms;

use crate::common::{
    answers, file, large_session, path, session_file, table_of, text, tunnel, word, SESSION,
};

#[test]
fn wrong_calls() {
    let session = session_file();
    let session = session.to_str().expect("text");
    let calls: [(&[&str], i32, &str); 19] = [
        (&[], 2, "usage: serve "),
        (&["--reader", "8", session], 2, "--reader takes a reader, 0 to 7"),
        (&["--reader"], 2, "--reader takes a reader, 0 to 7"),
        (&["--listen", "0.0.0.0:0", session], 2, "only this machine is served"),
        (&["--listen", "192.0.2.1:0", session], 2, "only this machine is served"),
        (&["--listen", "localhost", session], 2, "--listen takes an address and a port"),
        (&["--any-address", "--listen", "192.0.2.1:0", session], 1, "192.0.2.1:0: "),
        (&["--idle", "5", session], 2, "go with --listen"),
        (&["--idle", "0", session], 2, "--idle takes seconds, 1 to 86400"),
        (&["--connections", "0", session], 2, "--connections takes a number, 1 to 10000"),
        (&["--quick", session], 2, "unknown option --quick"),
        (&[session, session], 2, "one table at a time"),
        (&["no-such.session"], 2, "no-such.session: cannot be read: "),
        (&["--record", session, session], 2, "File exists"),
        (&["--record", "night-%q", session], 2, "night-%q: after % comes one of Y m d H M S %"),
        (&["--record", "no/such/folder", session], 2, "no/such/folder: No such file"),
        (&["--log"], 2, "--log takes a file"),
        (&["--log", "no/such/folder", session], 1, "no/such/folder: No such file"),
        (&["--log", "/dev/full", session], 1, "/dev/full: not a file"),
    ];
    for (arguments, status, message) in calls {
        let output = tunnel(arguments, b"");
        let told = text(&output.stderr);
        assert_eq!(output.status.code(), Some(status), "{arguments:?}: {told}");
        assert!(told.contains(message) && output.stdout.is_empty(), "{arguments:?}: {told}");
    }
}

/// What is said of the table at the start, for each way to serve it.
#[test]
fn what_is_served_is_told() {
    let (small, large) = (session_file(), file("large.session", large_session()));
    let empty = file("empty.session", "namespace personal \"\" \"/\"\n");
    let told = |arguments: &[&str], table: &Path| {
        let output = tunnel(&[arguments, &[word(table)]].concat(), b"");
        assert_eq!(output.status.code(), Some(0));
        text(&output.stderr)
    };
    let wide = "buffers: names 32768 bytes, a command 2048, an answer 1572864";
    let narrow = "buffers: names 16384 bytes, a command 2048, an answer 16384; a record is written, so an answer \
                  of over 16384 bytes is refused with 9, which cannot be for up to 23 names; LIST \"\" * has";
    let sum = |table: &Path| formats::sha256::sum_of_bytes(&table_of(table, Rooms::WIDE).packed());
    let start = |table: &Path, rows: &str| {
        format!("serve: {}: {rows}; SHA-256 of the packed rows {}; ", word(table), sum(table))
    };
    let expected = start(&small, "11 rows, 2 namespace entries, reader 3") + wide;
    assert_eq!(told(&["--reader", "3"], &small), expected + "\n");
    let record = path("record");
    let expected = start(&small, "11 rows, 2 namespace entries, reader 0") + narrow;
    let seen = told(&["--record", word(&record)], &small);
    assert!(
        seen.starts_with(&expected) && seen.ends_with(" bytes now, and is answered\n"),
        "{seen}"
    );
    let record = path("record");
    let expected = start(&large, "512 rows, 0 namespace entries, reader 0") + narrow;
    let seen = told(&["--record", word(&record)], &large);
    assert!(
        seen.starts_with(&expected) && seen.ends_with(" bytes now, and is refused\n"),
        "{seen}"
    );
    let expected = start(&empty, "0 rows, 1 namespace entries, reader 0") + wide;
    assert_eq!(told(&[], &empty), expected + "; the table is empty, so no mailbox is listed\n");
    // Edits of a review file count: the sum is that of the table as it is served.
    let review = path("review");
    tunnel(&["--review", word(&review), word(&small)], b"a SUBSCRIBE x\r\n");
    let seen = told(&["--review", word(&review)], &small);
    assert!(seen.contains(": 12 rows, ") && !seen.contains(&sum(&small).to_string()), "{seen}");
}

/// As many of the longest names as are promised to fit are answered while a record is written, under the longest tag.
#[test]
fn the_longest_names_that_fit_a_record() {
    let name = |number: u8| format!("{}{}", char::from(b'A' + number), "\\\"".repeat(199));
    let flags = "exists subscribed remote noinferiors marked trash";
    let row = |number| format!("mailbox \"{}\" {flags}\n", name(number));
    let table = file("long.session", (0..23).map(row).collect::<String>());
    let record = path("record");
    let rest = " LIST (SUBSCRIBED REMOTE SPECIAL-USE RECURSIVEMATCH) \"\" % RETURN (SUBSCRIBED CHILDREN SPECIAL-USE)\r\n";
    let command = "t".repeat(2_048 - rest.len()) + rest;
    let output = tunnel(&["--record", word(&record), word(&table)], command.as_bytes());
    let told = answers(&output);
    assert_eq!(told.matches("* LIST (").count(), 23, "{}", text(&output.stderr));
    assert!(told.ends_with("t OK done\r\n"));
}

/// LOGIN is answered OK where the call says so, and nothing else changes.
#[test]
fn logins() {
    let table = session_file();
    let input = b"a LOGIN x y\r\nb AUTHENTICATE PLAIN\r\nc SELECT INBOX\r\nd EXAMINE INBOX\r\n";
    let served = |arguments: &[&str]| {
        let told = answers(&tunnel(&[arguments, &[word(&table)]].concat(), input));
        told.lines().map(String::from).collect::<Vec<_>>()
    };
    let (without, with) = (served(&[]), served(&["--accept-login"]));
    let preauth = "NO [CANNOT] PREAUTH was the greeting: this connection needs no login";
    assert!(without[0].starts_with(&format!("a {preauth}")), "{without:?}");
    assert_eq!(with[0], "a OK done");
    for told in [&without, &with] {
        assert!(told[1].starts_with(&format!("b {preauth}")), "{told:?}");
        assert!(told[2].starts_with("c NO [CANNOT] no messages are served here"), "{told:?}");
        assert!(told[3].starts_with("d NO [CANNOT] no messages are served here"), "{told:?}");
        assert_eq!(told.len(), 4);
    }
}

#[test]
fn tables_that_are_refused() {
    let cases: [(&str, &[u8], i32, &str); 5] = [
        ("a.session", b"mailbox b exists\nmailbox b exists\n", 3, "refused with 1: "),
        (
            "b.session",
            b"mailbox b exists\nnamespace shared \"\" \"/\"\nnamespace personal \"\" \"/\"\n",
            3,
            "refused with 2: ",
        ),
        ("c.session", b"mailbox b exists\nno item\n", 2, "line 2: unknown item"),
        ("d.bin", b"\0\x01\xFF\x04Foo", 3, "refused with 1: "),
        ("e.bin", &[0; 32_769], 2, "over 32768 bytes"),
    ];
    for (name, bytes, status, message) in cases {
        let table = file(name, bytes);
        let output = tunnel(&[table.to_str().expect("text")], b"");
        let told = text(&output.stderr);
        assert_eq!(output.status.code(), Some(status), "{name}: {told}");
        assert!(told.contains(message) && output.stdout.is_empty(), "{name}: {told}");
    }
}

/// Sessions, files of frames and packed tables with the same rows are served alike.
#[test]
fn forms_of_a_table() {
    let frames = "4D0003FF03466F6F\n4D0001FF054D6F6F2F78\n";
    let files = [
        file("a.session", "mailbox Moo/x exists\nmailbox Foo exists subscribed\nwalk\n"),
        file("a.frames", frames),
        file("a.bin", b"\0\x03\xFF\x03Foo\0\x01\xFF\x05Moo/x"),
    ];
    let expected = "* LIST () \"/\" \"Foo\"\r\n* LIST (\\NonExistent \\HasChildren) \"/\" \"Moo\"\r\na OK done\r\n";
    for (number, table) in files.iter().enumerate() {
        let output = tunnel(&[table.to_str().expect("text")], b"a LIST \"\" %\r\n");
        assert_eq!((output.status.code(), answers(&output).as_str()), (Some(0), expected));
        let told = text(&output.stderr);
        assert_eq!(told.contains("1 items are no rows and no entries"), number == 0, "{told}");
    }
}

/// What a reader does not see is not served to it, and it does not edit.
#[test]
fn readers() {
    let table = session_file();
    let input = b"a LIST \"\" *\r\nb SUBSCRIBE x\r\n";
    let served = |reader: &str| {
        answers(&tunnel(&["--reader", reader, table.to_str().expect("text")], input))
    };
    let [zero, one, three] = ["0", "1", "3"].map(served);
    assert!(zero.contains("\"Customers/DEF/2019\"") && !zero.contains("Hidden"), "{zero}");
    assert!(!one.contains("2019") && one.contains("\"Hidden\"") && !one.contains("Deep"), "{one}");
    assert!(three.contains("\"Deep/a/b/c/d\"") && !three.contains("2019"), "{three}");
    assert!(zero.ends_with("b OK done\r\n"), "{zero}");
    for other in [one, three] {
        assert!(other.contains("\r\nb NO [refusal 16] the reader is above 7"), "{other}");
    }
}

/// Without a review file an edit lasts as long as the process.
#[test]
fn edits_without_a_review_file() {
    let table = session_file();
    let output = tunnel(&[table.to_str().expect("text")], b"a SUBSCRIBE x\r\nb LSUB \"\" x\r\n");
    assert_eq!(answers(&output), "a OK done\r\n* LSUB () \"/\" \"x\"\r\nb OK done\r\n");
    assert_eq!(std::fs::read_to_string(&table).expect("a file"), SESSION);
    let output = tunnel(&[table.to_str().expect("text")], b"b LSUB \"\" x\r\n");
    assert_eq!(answers(&output), "b OK done\r\n");
}
