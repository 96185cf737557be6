//! The server's own log beside a record: which start it is, and what it has of each command.

use std::fs;
use std::process::Command;

use luspemaro::Verdict;
use replay::{in_stack, replay_night, Account, Night};

use crate::common::*;

/// A record with the log of its server, which may have been there before.
fn night(log: &std::path::Path, commands: &[u8]) -> std::path::PathBuf {
    let record = path("night.frames");
    let account = account_of(SESSION, &record, Some(log));
    converse_with(&account, 0, commands);
    account.end().expect("a record");
    record
}

fn with_log(record: &std::path::Path, log: &std::path::Path) -> Account {
    let served = Some(log.to_path_buf());
    let night = Night { log: record.to_path_buf(), served, finds_all: true, ..Night::default() };
    in_stack(|| replay_night(&night, &mut |_| {})).expect("an account")
}

/// Of three starts in one log the one of the record is found.
#[test]
fn the_start_of_a_record() {
    let log = path("server.log");
    let nights = [&b"a LIST \"\" *\r\nb NOOP\r\n"[..], COMMANDS, b"a LSUB \"\" *\r\n"];
    let records = nights.map(|commands| night(&log, commands));
    for (record, count) in records.iter().zip([2, 15, 1]) {
        let account = with_log(record, &log);
        assert_eq!(account.served, Some((log.clone(), None)));
        let sent = &account.followed.sent;
        assert_eq!((sent.len(), account.followed.unrecorded), (count, 0));
        for one in sent {
            let logged = one.logged.as_ref().expect("a line");
            assert!(logged.time.ends_with('Z') && logged.peer == "test", "{logged:?}");
            assert!(logged.what.starts_with(&format!("{} ", one.word)), "{logged:?} {one:?}");
            assert!(logged.what.contains(&one.recorded), "{logged:?} {one:?}");
        }
    }
}

/// Two nights that are alike cannot be told apart by their log, and then no time is shown.
#[test]
fn starts_that_are_alike() {
    let log = path("server.log");
    let records = [COMMANDS, COMMANDS].map(|commands| night(&log, commands));
    for record in records {
        let account = with_log(&record, &log);
        let left_out = account.served.expect("a log").1.expect("a reason");
        assert_eq!(left_out.why, "2 starts in it have the table and the commands of this log");
        assert!(!left_out.is_doubt);
        assert!(account.followed.sent.iter().all(|sent| sent.logged.is_none()));
    }
}

/// A log beside the record is found by its name; commands that it has and the record has not are told.
#[test]
fn beside_the_record() {
    let log = path("server.log");
    let record = night(&log, COMMANDS);
    fs::copy(&log, record.with_extension("log")).expect("a file");
    let (status, _, all) = came(&run(&[word(&record)]));
    assert_eq!(status, Some(0));
    assert!(all.contains(".log has the time of each command\n"), "{all}");
    let lines = read(&record);
    let kept: Vec<&str> = lines.lines().collect();
    fs::write(&record, kept[..kept.len() - 4].join("\n") + "\n").expect("a file");
    let (status, first, all) = came(&run(&[word(&record)]));
    assert_eq!((status, first.as_str()), (Some(0), "agree"));
    assert!(all.contains("it has 2 commands more, which this log has not"), "{all}");
    // A file that is none of a server's is left out.
    fs::write(record.with_extension("log"), "something else\n").expect("a file");
    let (status, _, all) = came(&run(&[word(&record)]));
    assert_eq!(status, Some(0));
    assert!(all.contains("is left out: it has no line of a server's start"), "{all}");
}

/// A recorded answer that was changed stands beside what the server's log says of it.
#[test]
fn what_the_server_said() {
    let log = path("server.log");
    let record = night(&log, COMMANDS);
    let (heading, mut frames) = split_record(&read(&record));
    let mut write = |at: usize, frame: String| {
        frames[at] = frame;
        fs::write(&record, format!("{heading}{}\n", frames.join("\n"))).expect("a file");
        with_log(&record, &log)
    };
    let account = write(1, "5205".to_string());
    assert_eq!(account.followed.verdict, Verdict::Differs(1));
    let all = replay::text(&account, false);
    assert!(all.contains(", connection 1, test: LIST answered "), "{all}");
    assert_eq!(account.followed.contradicted.count, 1);
    // A command that was changed is in no start.
    let account = write(0, "4300612046\n".trim().to_string());
    let left_out = account.served.expect("a log").1.expect("a reason");
    assert_eq!(left_out.why, "no start in it has the table and the commands of this log");
    assert!(left_out.is_doubt);
}

/// A command and its answer that were changed together agree, and the server's log says otherwise.
#[test]
fn a_command_and_its_answer_changed_together() {
    let log = path("server.log");
    let record = night(&log, b"a LIST \"\" *\r\n");
    let (heading, _) = split_record(&read(&record));
    let other = split_record(&read(&recorded(SESSION, b"a LIST \"\" I*\r\n"))).1;
    fs::write(&record, format!("{heading}{}\n{}\n", other[0], other[1])).expect("a file");
    let page = path("page.html");
    let words = ["--built-by-proof", "--report", word(&page), "--log", word(&log), word(&record)];
    let (status, first, all) = came(&run(&words));
    assert_eq!((status, first.as_str()), (Some(0), "agree"), "{all}");
    assert!(
        all.contains("it says otherwise of 1 command, first of frame 1: LIST answered "),
        "{all}"
    );
    let page = read(&page);
    assert!(
        page.contains("Not everything was checked or agreed.")
            && page.contains("it says otherwise")
    );
}

/// A log that is a pipe is read once, by the replay alone.
#[test]
fn a_log_that_is_a_pipe() {
    let log = path("server.log");
    let record = night(&log, &COMMANDS.repeat(40));
    let mut command = Command::new("/bin/bash");
    command.args(["-c", "\"$0\" --log \"$1\" <(cat \"$2\")", REPLAY, word(&log), word(&record)]);
    let (status, first, all) = came(&command.output().expect("an end"));
    assert_eq!((status, first.as_str()), (Some(0), "agree"), "{all}");
    assert!(all.contains(" 600 commands run again"), "{all}");
    assert!(all.contains("is left out: this log is no plain file, and is read once\n"), "{all}");
}
