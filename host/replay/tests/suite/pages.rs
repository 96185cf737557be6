//! The page of a replay: its verdict is never greener than what was checked, and no file is written over.

use std::fs;
use std::path::PathBuf;

use crate::common::*;

const PROVED: [&str; 3] = ["--built-by-proof", "--archive-sum", "feed"];

fn page_of(words: &[&str]) -> String {
    let page = path("page.html");
    let output = run(&[&["--report", word(&page)], words].concat());
    assert!(
        output.status.code().is_some_and(|status| [0, 1, 3].contains(&status)),
        "{}",
        text(&output.stderr)
    );
    read(&page)
}

fn is_green(page: &str) -> bool {
    let green = page.contains("class=\"well\" id=\"verdict\"");
    assert_eq!(
        green,
        page.contains("Every recorded answer is what the proved library answers now.")
    );
    assert_ne!(green, page.contains("Not everything was checked or agreed."));
    green
}

/// Green needs the proof's library, an agreement, commands, and a table that passes.
#[test]
fn what_green_needs() {
    let record = recorded(SESSION, COMMANDS);
    let (heading, mut frames) = split_record(&read(&record));
    assert!(is_green(&page_of(&[&PROVED[..], &[word(&record)]].concat())));
    assert!(!is_green(&page_of(&[word(&record)])));
    frames[1] = "5201".to_string();
    let others = [
        format!("{heading}{}\n", frames.join("\n")),
        heading.clone() + "57\n",
        heading.clone(),
        "4D0001FF04466F6F\n4300614E414D4553504143450D0A\n5201\n".to_string(),
    ];
    for other in others {
        let log = file("log", &other);
        let page = page_of(&[&PROVED[..], &[word(&log)]].concat());
        assert!(!is_green(&page) && page.contains("data-reason=\"wrong\""), "{other}");
    }
}

/// A record with two answers changed, and the server's log of it.
fn changed_night() -> (PathBuf, PathBuf) {
    let (server, record) = (path("server.log"), path("night.frames"));
    let account = account_of(SESSION, &record, Some(&server));
    converse_with(&account, 0, COMMANDS);
    account.end().expect("a record");
    let (heading, mut frames) = split_record(&read(&record));
    frames[7] = "520E".to_string();
    frames[1] = "5201".to_string();
    fs::write(&record, heading + &frames.join("\n") + "\n").expect("a file");
    (record, server)
}

/// Sums and fields.
#[test]
fn what_a_page_rests_on() {
    let (record, _) = changed_night();
    let fields = ["--case", "A <b> \"c\"", "--examiner", "E", "--exhibit", "X", "--date", "D"];
    let origin = ["--commit", "commit c", "--sources-sum", "beef", word(&record)];
    let page = page_of(&[&fields[..], &origin].concat());
    let sum = session::sum_of_file(&record).expect("a sum").to_string();
    let rows = replayed(&record).start.rows_sum().to_string();
    let parts = [
        "A &lt;b&gt; &quot;c&quot;",
        "commit c",
        "beef",
        "It is not known what built the library",
        "differs 1",
    ];
    for part in parts.into_iter().chain([sum.as_str(), &rows]) {
        assert!(page.contains(part), "{part}");
    }
}

/// Differences, the commands of the night and the table at the end.
#[test]
fn what_a_page_has() {
    let (record, server) = changed_night();
    let page = page_of(&["--all", "--log", word(&server), word(&record)]);
    assert_eq!(page.matches("class=\"exchange refused\"").count(), 2);
    assert!(page.contains("data-frame=\"1\"") && page.contains("data-frame=\"7\""));
    assert_eq!(page.matches("data-sent=").count(), 15);
    assert_eq!(
        ["the same", "differs"].map(|word| page.matches(&format!(">{word}<")).count()),
        [13, 2]
    );
    let year = &formats::date::now()[..4];
    assert!(page.contains(&format!("<td>{year}-")) && page.contains(">SUBSCRIBE<"), "{page}");
    let end = page.split("id=\"end\">").nth(1).expect("a table");
    assert!(end.contains("New") && !end.contains("Gone"), "{end}");
    // Without the log of the server no time is known.
    let page = page_of(&[word(&record)]);
    assert!(page.contains("No time is known") && page.contains("The first alone was looked for."));
    assert_eq!(page.matches("class=\"exchange refused\"").count(), 1);
    // Nothing is called the same that was not looked at.
    let words = ["the same", "differs", "not looked at"];
    assert_eq!(words.map(|word| page.matches(&format!(">{word}<")).count()), [0, 1, 14]);
}

#[test]
fn no_file_is_written_over() {
    let record = recorded(SESSION, COMMANDS);
    let before = read(&record);
    let there = file("page.html", "what is there");
    for page in [&there, &record] {
        let output = run(&["--report", word(page), word(&record)]);
        assert_eq!(output.status.code(), Some(2), "{}", text(&output.stderr));
        assert!(output.stdout.is_empty());
    }
    let output = run(&["--report", word(&record), "--force", word(&record)]);
    assert_eq!(output.status.code(), Some(2));
    assert_eq!((read(&there).as_str(), read(&record)), ("what is there", before));
    let output = run(&["--report", word(&there), "--force", word(&record)]);
    assert_eq!(output.status.code(), Some(0), "{}", text(&output.stderr));
    assert!(read(&there).starts_with("<!DOCTYPE html>"));
    // A page that cannot be made is told before anything is replayed.
    let output = run(&["--report", "/there/is/none.html", word(&record)]);
    assert_eq!((output.status.code(), output.stdout.len()), (Some(2), 0));
}

/// Of many differences and commands the first are shown, and all are counted.
#[test]
fn many_differences() {
    let record = recorded(SESSION, b"a NAMESPACE\r\n");
    let (heading, frames) = split_record(&read(&record));
    let exchange = format!("{}\n5204\n", frames[0]);
    let log = file("log", heading + &exchange.repeat(1_500));
    let (status, first, all) = came(&run(&["--all", word(&log)]));
    assert_eq!((status, first.as_str()), (Some(1), "differs 1"));
    assert_eq!(all.matches("\nDiffers  ").count(), 1_000);
    assert!(all.ends_with("\nand 500 more that differ, counted and not shown\n"));
    let page = page_of(&["--all", word(&log)]);
    assert!(
        page.contains("And 500 more, counted and not shown.")
            && page.contains("500 commands more, run again")
    );
    assert!(page.contains("1500 recorded answers differ."));
}
