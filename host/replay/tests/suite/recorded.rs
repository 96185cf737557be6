//! What `./serve --record` writes is replayed, edits included.

use std::thread;

use luspemaro::Verdict;

use crate::common::*;

#[test]
fn a_recorded_session_agrees() {
    let record = recorded(SESSION, COMMANDS);
    let account = replayed(&record);
    let followed = &account.followed;
    assert_eq!(followed.verdict, Verdict::Agree, "{}", read(&record));
    assert_eq!((account.start.lines(), account.faults.len()), (7, 0));
    let counts = followed.counts;
    assert_eq!(counts.frames, 2 * counts.commands());
    // Of the editor: Sent, New and Gone.
    assert_eq!((counts.commands(), counts.changed, counts.differing), (3 * 15, 3, 0));
    assert!(counts.answered > 20 && counts.refused > 10, "{counts:?}");
    // Gone has no row any more, and New has one.
    let rows: Vec<String> =
        followed.table.packed_rows().iter().map(|row| text(&row[4..])).collect();
    assert_eq!(rows, ["Customers/ABC", "Hidden", "INBOX", "New", "Sent"]);
}

/// Commands of several connections at once, which edit.
#[test]
fn connections_at_once_agree() {
    let record = path("night.frames");
    let account = account_of(SESSION, &record, None);
    thread::scope(|scope| {
        for number in 0..4 {
            let account = &account;
            scope.spawn(move || {
                for turn in 0..20 {
                    let commands = format!(
                        "a SUBSCRIBE n{number}-{turn}\r\nb LSUB \"\" *\r\nc UNSUBSCRIBE n{number}-{}\r\nd LIST \"\" %\r\n",
                        turn / 2
                    );
                    converse_with(account, 0, commands.as_bytes());
                }
            });
        }
    });
    account.end().expect("a record");
    let counts = replayed(&record).followed.counts;
    assert_eq!((verdict(&record), counts.commands()), (Verdict::Agree, 4 * 20 * 4));
    assert!(counts.changed > 80, "{counts:?}");
}

/// The table of an account that is empty has no line in the record.
#[test]
fn an_empty_table_agrees() {
    let record = recorded("", COMMANDS);
    let account = replayed(&record);
    assert_eq!((account.followed.verdict, account.start.lines()), (Verdict::Agree, 0));
    assert!(replay::text(&account, false).contains("so the table is empty"));
}

/// The night that comes with the repository is one of `./serve`, over a session that comes with it too.
#[test]
fn the_bundled_night_agrees() {
    let (status, first, all) = came(&run(&[BUNDLED]));
    assert_eq!((status, first.as_str()), (Some(0), "agree"), "{all}");
    let account = replayed(BUNDLED.as_ref());
    let session = replay::Start::of_file(CUSTOMERS.as_ref()).expect("a session");
    assert_eq!((&account.start.rows, &account.start.entries), (&session.rows, &session.entries));
    let counts = account.followed.counts;
    assert!(counts.changed >= 2 && counts.refused >= 2 && counts.answered >= 8, "{counts:?}");
}
