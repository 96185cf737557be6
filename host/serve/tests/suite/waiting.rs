//! Nobody waits for another client's reading: commands that take the processor for a second, and others beside them.

use std::sync::atomic::{AtomicUsize, Ordering};
use std::thread;
use std::time::{Duration, Instant};

use crate::common::{file, path, text, word, Client, Server};
use crate::recorded::check;

/// Connections with a long command each.
const BUSY: usize = 8;
/// So many of the longest names fit into a packed table.
const MOST_NAMES: usize = 160;
/// Commands of the client that is measured.
const TRIES: usize = 9;
const FEW_NAMES: usize = 3;
/// A command is answered sooner beside others that take seconds, also on a machine that does other things.
const SOON: Duration = Duration::from_millis(500);
const NOOP: &[u8] = b"n NOOP\r\n";
const SHORT: &[u8] = b"s LIST \"\" none\r\n";
const DONE: &[u8] = b" OK done\r\n";

/// The longest names, each of 16 levels.
fn long_names(count: usize) -> String {
    let row =
        |number| format!("mailbox {number:03}{}{} exists\n", "a".repeat(167), "/a".repeat(15));
    (0..count).map(row).collect()
}

/// A lawful line whose patterns are compared with every level of every name, for as long as any.
fn long_command() -> Vec<u8> {
    let pattern = format!("*{}{}", "%".repeat(160), "a".repeat(90));
    format!("b LIST \"{pattern}\" ({})\r\n", ["b%"; 8].join(" ")).into_bytes()
}

/// A line of that kind that says of two names whether they are subscribed, and takes some milliseconds over a few.
fn long_listing() -> Vec<u8> {
    let pattern = format!("*%%%%{}b%", "a".repeat(90));
    let patterns = [pattern.as_str(); 7].join(" ");
    format!("b LIST \"\" ({patterns} e%) RETURN (SUBSCRIBED)\r\n").into_bytes()
}

/// The median of the times until a command is answered.
fn median(client: &mut Client, command: &[u8]) -> Duration {
    let mut times: Vec<Duration> = (0..TRIES)
        .map(|_| {
            let begin = Instant::now();
            let answer = client.command(command).concat();
            assert!(answer.ends_with(DONE), "{}", text(&answer));
            begin.elapsed()
        })
        .collect();
    times.sort();
    times[TRIES / 2]
}

#[test]
fn nobody_waits_for_a_reading() {
    let server = Server::start(&file("long.session", long_names(MOST_NAMES)), &[]);
    let mut busy: Vec<Client> = (0..BUSY).map(|_| server.connect()).collect();
    let mut client = server.connect();
    let begin = Instant::now();
    busy.iter_mut().for_each(|other| other.send(&long_command()).expect("open"));
    let times = [NOOP, SHORT].map(|command| median(&mut client, command));
    let measured = begin.elapsed();
    busy.iter_mut().for_each(|other| assert_eq!(text(&other.line()), "b OK done\r\n"));
    let all = begin.elapsed();
    println!(
        "beside {BUSY} long commands: NOOP {:.1?}, a short LIST {:.1?}; measured in {measured:.1?}, all done in {all:.1?}",
        times[0], times[1]
    );
    assert!(times.iter().all(|&time| time < SOON), "{times:?}");
    // All were measured while the long commands were answered.
    assert!(measured < all / 2, "{measured:?} of {all:?}");
}

/// An edit is not put off by readings that began before it, and who asks after it sees it.
#[test]
fn an_edit_beside_readings() {
    let server = Server::start(&file("long.session", long_names(MOST_NAMES)), &[]);
    let mut busy: Vec<Client> = (0..BUSY).map(|_| server.connect()).collect();
    let mut client = server.connect();
    busy.iter_mut().for_each(|other| other.send(&long_command()).expect("open"));
    let begin = Instant::now();
    for word in ["SUBSCRIBE", "UNSUBSCRIBE"] {
        let answer = client.command(format!("e {word} new\r\n").as_bytes()).concat();
        assert_eq!(text(&answer), "e OK done\r\n");
        let seen = client.command(b"l LSUB \"\" new\r\n").len() == 2;
        assert_eq!(seen, word == "SUBSCRIBE");
    }
    let edits = begin.elapsed();
    println!("two edits and two readings beside {BUSY} long commands: {edits:.1?}");
    assert!(edits < 4 * SOON, "{edits:?}");
}

/// While two clients edit without a pause, others read, each for longer than an edit takes: the record's answers are
/// those of its order, and each client sees its own edit in what it asks next.
#[test]
fn edits_and_readings_are_recorded_in_order() {
    const READERS: usize = 3;
    const ROUNDS: usize = 4;
    let rows = long_names(FEW_NAMES) + "mailbox e0 exists\nmailbox e1 exists\n";
    let (table, record) = (file("long.session", rows), path("record"));
    let server = Server::start(&table, &["--record", word(&record)]);
    let reading = AtomicUsize::new(READERS);
    let edits: usize = thread::scope(|scope| {
        let editors = [0, 1].map(|number| {
            let (client, reading) = (server.connect(), &reading);
            scope.spawn(move || edit_beside(client, number, reading))
        });
        for mut client in (0..READERS).map(|_| server.connect()) {
            let reading = &reading;
            scope.spawn(move || {
                for _ in 0..ROUNDS {
                    client.command(&long_listing());
                    client.command(b"l LSUB \"\" *\r\n");
                    client.command(NOOP);
                }
                reading.fetch_sub(1, Ordering::Relaxed);
            });
        }
        editors.into_iter().map(|editor| editor.join().expect("edits")).sum()
    });
    drop(server);
    assert!(edits > 0);
    assert_eq!(check(&record), (2 * edits + 2 * READERS * ROUNDS, READERS * ROUNDS));
}

/// Makes edits of one name while others read, and asks for it after each. Returns their number.
fn edit_beside(mut client: Client, number: usize, reading: &AtomicUsize) -> usize {
    let mut edits = 0;
    while reading.load(Ordering::Relaxed) > 0 {
        let word = ["SUBSCRIBE", "UNSUBSCRIBE"][edits % 2];
        client.command(format!("e {word} e{number}\r\n").as_bytes());
        let lines = client.command(format!("l LSUB \"\" e{number}\r\n").as_bytes());
        assert_eq!(lines.len() == 2, word == "SUBSCRIBE");
        edits += 1;
    }
    edits
}
