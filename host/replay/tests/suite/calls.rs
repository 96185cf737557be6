//! The program's calls: verdict, status, account; what is wrong, and what fails.

use std::fs::File;
use std::io::Write;
use std::process::{Command, Stdio};
use std::time::{Duration, Instant};

use crate::common::*;

/// A record and its frames, with a frame changed.
fn changed(change: impl FnOnce(&mut Vec<String>)) -> (std::path::PathBuf, u64) {
    let record = read(&recorded(SESSION, COMMANDS));
    let (heading, mut frames) = split_record(&record);
    change(&mut frames);
    let lines = heading.lines().count() as u64;
    (file("night.frames", heading + &frames.join("\n") + "\n"), lines)
}

#[test]
fn an_account_that_agrees() {
    let (log, lines) = changed(|_| {});
    let (status, first, all) = came(&run(&["--table", word(&log)]));
    assert_eq!((status, first.as_str()), (Some(0), "agree"), "{all}");
    assert!(all.contains(": 90 frames, 45 commands run again, "), "{all}");
    assert!(
        all.contains(&format!(
            "after the first {lines} lines of the file, so frame 1 is line {}",
            lines + 1
        )),
        "{all}"
    );
    assert!(all.contains("At the end 5 rows; 3 commands changed one\n"), "{all}");
    let rows = all.split_once("\n\n").expect("a table").1;
    assert_eq!(rows.lines().count(), 5);
    assert!(rows.lines().all(|line| line.starts_with("4D")), "{rows}");
    // The table at the end is that of the program of frames.
    let sent: String = read(&log)
        .lines()
        .filter(|line| !line.starts_with("41") && !line.starts_with("52"))
        .map(|line| format!("{line}\n"))
        .collect();
    let mut program = second::frames::Program::default();
    sent.lines().for_each(|line| drop(program.answer(line.as_bytes())));
    let store = program.store.expect("edits");
    assert_eq!(replay::store_of(&replayed(&log).followed.table), Some(store));
}

/// A line that is left out, one that is put in, one that is changed, and a refusal in place of an answer.
#[test]
fn an_account_that_differs() {
    let (log, lines) = changed(|frames| {
        let answer = formats::hex::bytes_of_hex(frames[1].as_bytes()).expect("bytes");
        let answer = text(&answer)
            .replace("* LIST () \"/\" \"Customers/ABC\"\r\n", "")
            .replace("\\Marked", "\\Unmarked");
        frames[1] = text(&formats::hex::hex_of(answer.as_bytes()));
        frames[7] = "520E".to_string();
    });
    let (status, first, all) = came(&run(&[word(&log)]));
    assert_eq!((status, first.as_str()), (Some(1), "differs 1"), "{all}");
    for part in [
        &format!("\nDiffers    frame 1, line {} of the file: 2 lines missing, 1 line too much in the log\n", lines + 1),
        "\nCommand    a LIST \"\" *\n",
        "\nRecorded   * LIST (\\Unmarked) \"/\" \"INBOX\"\n",
        "\nNow        * LIST () \"/\" \"Customers/ABC\"\n           * LIST (\\Marked) \"/\" \"INBOX\"\n",
        "\nMissing    * LIST () \"/\" \"Customers/ABC\"\n           * LIST (\\Marked) \"/\" \"INBOX\"\n",
        "\nToo much   * LIST (\\Unmarked) \"/\" \"INBOX\"\n",
        "\nExplained  hidden: from reader 0, 1 of 5 rows: Hidden\n",
        "Customers/ABC\": by its criteria: it exists, it is local; it matches *\n",
        "           (explained by the second program, not proved)\n",
    ] {
        assert!(all.contains(part), "{part}\n{all}");
    }
    assert_eq!(all.matches("Differs  ").count(), 1, "{all}");
    assert!(
        all.ends_with("\nthe first difference alone was looked for; --all finds every one\n"),
        "{all}"
    );
    let (status, first, all) = came(&run(&["--all", word(&log)]));
    assert_eq!((status, first.as_str()), (Some(1), "differs 1"));
    assert_eq!(all.matches("\nDiffers  ").count(), 2, "{all}");
    for part in [
        "\nDiffers    frame 7, ",
        "\nCommand    d SUBSCRIBE {3}\n           + New\n",
        "\nRecorded   refused with 14: ",
        "\nNow        d OK done\n",
        "\nMissing    d OK done\n",
        "New is subscribed now; there is no such mailbox, so a row was added for it\n",
    ] {
        assert!(all.contains(part), "{part}\n{all}");
    }
}

#[test]
fn an_account_that_is_refused() {
    let (log, lines) = changed(|frames| {
        frames[1] = "5204".to_string();
        frames[4] = "57FF00".to_string();
    });
    let (status, first, all) = came(&run(&[word(&log)]));
    assert_eq!((status, first.as_str()), (Some(3), "refused 13 5"), "{all}");
    assert!(all.contains(&format!("Stopped    by frame 5, line {} of the file: the first byte of a frame of a log is 43, 41 or 52\n", lines + 5)));
    assert!(
        all.contains("\nFrame      57FF00\n") && all.contains("\nDiffers    frame 1, "),
        "{all}"
    );
    let (log, lines) = changed(|frames| drop(frames.pop()));
    let (status, first, all) = came(&run(&[word(&log)]));
    assert_eq!((status, first.as_str()), (Some(3), "refused 13 89"), "{all}");
    assert!(
        all.contains(&format!(
            "by frame 89, line {} of the file: a log does not end after a 43\n",
            lines + 89
        )),
        "{all}"
    );
}

/// A log is bytes: comments, CR and empty lines are frames that cannot be read.
#[test]
fn what_is_no_frame() {
    for extra in ["# a comment", "", "4300\r", " 4300"] {
        let (log, _) = changed(|frames| frames.insert(2, extra.to_string()));
        assert_eq!(came(&run(&[word(&log)])).1, "refused 13 3", "{extra:?}");
    }
    let output = run_with(&["-"], b"");
    let (status, first, all) = came(&output);
    assert_eq!((status, first.as_str()), (Some(0), "agree"));
    assert!(
        all.contains("Nothing    no command was run again, so nothing was compared\n"),
        "{all}"
    );
}

#[test]
fn standard_input() {
    let (log, _) = changed(|_| {});
    let (status, first, all) = came(&run_with(&["-"], read(&log).as_bytes()));
    assert_eq!((status, first.as_str()), (Some(0), "agree"), "{all}");
}

#[test]
fn wrong_calls() {
    let (log, _) = changed(|_| {});
    let (log, page) = (word(&log), path("page.html"));
    let page = word(&page);
    let cases: [(&[&str], &str); 12] = [
        (&[], "a log, or a table and a log, and 0 are named"),
        (&["a", "b", "c"], "and 3 are named"),
        (&["--force", log], "go with --report"),
        (&["--case", "x", log], "go with --report"),
        (&["--log"], "--log takes a word"),
        (&["--report", page, "--report", page, log], "--report stands twice"),
        (&["--what", log], "unknown option --what"),
        (&["there-is-none"], "there-is-none: cannot be read"),
        (&["there-is-none", log], "there-is-none: cannot be read"),
        (&["/"], "a folder"),
        (&["--log", "there-is-none", log], "there-is-none: cannot be read"),
        (&["--log", log, log], "no log of ./serve"),
    ];
    for (words, told) in cases {
        let output = run(words);
        assert_eq!(output.status.code(), Some(2), "{words:?}");
        assert!(text(&output.stderr).contains(told), "{words:?}: {}", text(&output.stderr));
        assert!(output.stdout.is_empty() && !std::path::Path::new(page).exists(), "{words:?}");
    }
}

/// The command that needs most of the stack, and the longest, by the library and in the explanation.
#[test]
fn deep_commands() {
    for middle in ["(", "(x (", "\"\\\\"] {
        let line = format!("a LIST {}", middle.repeat(2_000 / middle.len()));
        for ending in ["\r\n", ""] {
            let command = [&[0x43, 0], line.as_bytes(), ending.as_bytes()].concat();
            let log = [formats::hex::hex_of(&command), b"\n4161\n".to_vec()].concat();
            let (status, first, all) = came(&run(&["--all", word(&file("log", log))]));
            assert_eq!((status, first.as_str()), (Some(1), "differs 1"), "{all}");
            assert!(all.contains("\nExplained  "), "{all}");
        }
    }
}

/// Output that fails is trouble, and a verdict that nobody saw is none.
#[test]
fn output_that_fails() {
    let (log, _) = changed(|_| {});
    let page = path("page.html");
    let full = File::options().write(true).open("/dev/full").expect("a device");
    let mut command = Command::new(REPLAY);
    let output =
        command.args(["--report", word(&page), word(&log)]).stdout(full).output().expect("an end");
    assert_eq!(output.status.code(), Some(4));
    assert!(text(&output.stderr).contains("cannot write the output"));
    assert!(!page.exists());
}

/// Of a log that goes on and on no more is held than at its beginning, and how far it is is told meanwhile.
#[test]
fn memory_and_progress() {
    let exchange = b"430061204E414D4553504143450D0A\n412A204E414D455350414345204E494C204E494C204E494C0D0A61204F4B20646F6E650D0A\n";
    let mut command = Command::new(REPLAY);
    command.arg("-").stdin(Stdio::piped()).stdout(Stdio::piped()).stderr(Stdio::piped());
    let mut child = command.spawn().expect("a start");
    let mut input = child.stdin.take().expect("an input");
    let many: Vec<u8> = exchange.repeat(1_000);
    let (begun, mut count) = (Instant::now(), 0);
    while begun.elapsed() < Duration::from_millis(2_500) || count < 50 {
        input.write_all(&many).expect("an open input");
        count += 1;
    }
    let status =
        std::fs::read_to_string(format!("/proc/{}/status", child.id())).expect("a process");
    let peak = status.lines().find_map(|line| line.strip_prefix("VmHWM:")).expect("a line");
    let peak: u64 =
        peak.trim_matches(|byte: char| !byte.is_ascii_digit()).parse().expect("a number");
    drop(input);
    let output = child.wait_with_output().expect("an end");
    let (status, first, all) = came(&output);
    assert_eq!((status, first.as_str()), (Some(0), "agree"));
    assert!(
        all.contains(&format!("{} frames, {} commands run again", count * 2_000, count * 1_000)),
        "{all}"
    );
    assert!(peak < 12_000, "{peak} kB after {count} thousand commands");
    assert!(text(&output.stderr).contains(" bytes, "), "{}", text(&output.stderr));
}
