//! The table that a log starts from: of a session file, a file of frames, a packed table, or the log itself; passing or not.

use luspemaro::Verdict;
use replay::Start;

use crate::common::*;

/// The same night, its table in each form.
#[test]
fn every_form_of_a_table() {
    let record = read(&recorded(SESSION, COMMANDS));
    let (heading, frames) = split_record(&record);
    let log = file("night.frames", frames.join("\n") + "\n");
    let session = file("table.session", SESSION);
    let packed = Start::of_file(&session).expect("a session").rows;
    let tables = [session, file("table.frames", &heading)];
    for table in &tables {
        let (status, first, all) = came(&run(&["--table", word(table), word(&log)]));
        assert_eq!((status, first.as_str()), (Some(0), "agree"), "{all}");
        assert!(all.contains("so the number of a frame is its line in the file"), "{all}");
        assert_eq!(all.lines().filter(|line| line.starts_with("4D")).count(), 5, "{all}");
    }
    // A packed table has no namespace list, so NAMESPACE is answered otherwise.
    let binary = file("table.bin", packed);
    let (status, first, _) = came(&run(&[word(&binary), word(&log)]));
    let namespace =
        frames.iter().position(|frame| frame.starts_with("430068204E414D45")).expect("a command");
    assert_eq!((status, first), (Some(1), format!("differs {}", namespace + 1)));
}

/// Rows and entries that do not pass: every command is answered 1 or 2, and that is compared.
#[test]
fn tables_that_do_not_pass() {
    // The row runs past the end; the rows are in the wrong order; the list has no such class.
    let cases = [
        ("4D0001FF04466F6F\n", "1", "the table does not pass (1)"),
        ("4D0001FF0162\n4D0001FF0161\n", "1", "the table does not pass (1)"),
        ("4D0001FF03466F6F\n4E03002F\n", "2", "the namespace list does not pass (2)"),
    ];
    for (heading, number, told) in cases {
        let command = "4300614E414D4553504143450D0A";
        let agrees =
            file("log", format!("{heading}{command}\n520{number}\n{command}\n520{number}\n"));
        let (status, first, all) = came(&run(&["--table", word(&agrees)]));
        assert_eq!((status, first.as_str()), (Some(0), "agree"), "{all}");
        assert!(
            all.contains(told) && all.contains("explained by the second program, not proved"),
            "{all}"
        );
        // The rows are as they were.
        let rows: String = all
            .lines()
            .filter(|line| line.starts_with("4D"))
            .map(|line| format!("{line}\n"))
            .collect();
        assert!(heading.starts_with(&rows) && !rows.is_empty(), "{all}");
        let differs = file("log", format!("{heading}{command}\n5203\n"));
        let (status, first, all) = came(&run(&[word(&differs)]));
        assert_eq!((status, first.as_str()), (Some(1), "differs 1"), "{all}");
        assert!(all.contains(&format!("Now        refused with {number}: ")), "{all}");
    }
}

#[test]
fn more_than_the_program_keeps() {
    let log = file("log", "");
    let rows = |count: usize, length: usize| -> String {
        (0..count).map(|number| format!("mailbox {number:0length$} exists\n")).collect()
    };
    for (session, told) in [
        (rows(513, 3), "there are 513 rows; a table that is replayed has at most 512"),
        (rows(81, 199), "the rows have 16443 bytes; a table that is replayed has at most 16384"),
    ] {
        let table = file("table.session", session);
        let output = run(&[word(&table), word(&log)]);
        assert_eq!(output.status.code(), Some(2));
        assert!(text(&output.stderr).contains(told), "{}", text(&output.stderr));
        assert!(output.stdout.is_empty());
    }
    // In the log itself too.
    let heading: String = (0..513)
        .map(|number| {
            format!(
                "4D0001FF03{}\n",
                text(&formats::hex::hex_of(format!("{number:03}").as_bytes()))
            )
        })
        .collect();
    let log = file("log", heading);
    let output = run(&[word(&log)]);
    assert_eq!(output.status.code(), Some(2));
    assert!(text(&output.stderr).contains("there are 513 rows"));
}

/// A row or an entry after the first command is out of turn, and so is one in a log whose table is named.
#[test]
fn rows_out_of_turn() {
    let record = read(&recorded(SESSION, COMMANDS));
    let (heading, frames) = split_record(&record);
    for (extra, name) in [("4D0001FF0161", "a row"), ("4E00002F", "an entry")] {
        for at in [0, 2, frames.len()] {
            let mut changed = frames.clone();
            changed.insert(at, extra.to_string());
            let log = file("log", format!("{heading}{}\n", changed.join("\n")));
            // At the beginning it is one more of the table's.
            let expected = if at == 0 { None } else { Some(Verdict::Refused(at + 1)) };
            let verdict = verdict(&log);
            assert!(
                expected.is_none_or(|expected| expected == verdict),
                "{name} at {at}: {verdict:?}"
            );
        }
    }
    let (table, log) = (file("table.session", SESSION), file("log", &record));
    let (status, first, all) = came(&run(&[word(&table), word(&log)]));
    assert_eq!((status, first.as_str()), (Some(3), "refused 13 1"));
    assert!(all.contains("Hint       the log brings its own table"), "{all}");
}
