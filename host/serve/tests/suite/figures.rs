//! The figures of docs/SERVING.md, as ratios: `cargo test --release -p serve figures -- --ignored --nocapture`.

use std::thread;
use std::time::{Duration, Instant};

use luspemaro::Reader;
use serve::Rooms;

use crate::common::{file, large_session, path, table_of, Client, Server};
use crate::load::expected;

const LIST: &[u8] = b"a LIST \"\" *\r\n";
const LEVEL: &[u8] = b"a LIST \"Folder/\" %\r\n";
const NOOP: &[u8] = b"a NOOP\r\n";
const ROUNDS: usize = 41;

/// The median of the times of a call.
fn time(mut call: impl FnMut()) -> f64 {
    let mut times: Vec<Duration> = (0..ROUNDS)
        .map(|_| {
            let begin = Instant::now();
            (0..20).for_each(|_| call());
            begin.elapsed()
        })
        .collect();
    times.sort();
    times[ROUNDS / 2].as_secs_f64() / 20.0
}

fn ask(client: &mut Client, line: &[u8], length: usize) {
    client.send(line).expect("open");
    client.bytes(length);
}

#[test]
#[ignore = "measures"]
fn figures() {
    let table = file("large.session", large_session());
    let [list, level] = [LIST, LEVEL].map(|line| expected(&table, line).len());
    let server = Server::start(&table, &[]);
    let bare = server.memory("VmRSS");
    let mut client = server.connect();
    let noop = time(|| ask(&mut client, NOOP, b"a OK done\r\n".len()));
    let mut lent = table_of(&table, Rooms::WIDE);
    let mut out = vec![0; Rooms::WIDE.answer];
    for (name, line, length) in [("LIST \"\" *", LIST, list), ("LIST Folder/ %", LEVEL, level)] {
        let wire = time(|| ask(&mut client, line, length));
        let alone = time(|| assert!(lent.answer(Reader::EDITOR, line, &mut out).is_ok()));
        println!("{name}: over the socket / by the library alone {:.1}", wire / alone);
        println!("{name}: over the socket / NOOP over the socket {:.1}", wire / noop);
        let bytes = time(|| {
            line.iter().for_each(|&byte| client.send(&[byte]).expect("open"));
            client.bytes(length);
        });
        println!("{name}: a byte at a time / at once {:.1}", bytes / wire);
    }
    let single = time(|| ask(&mut client, LIST, list));
    let one = server.memory("VmRSS");
    let clients: Vec<Client> = (0..50).map(|_| server.connect()).collect();
    let begin = Instant::now();
    thread::scope(|scope| {
        for mut client in clients {
            scope.spawn(move || (0..100).for_each(|_| ask(&mut client, LIST, list)));
        }
    });
    let many = begin.elapsed().as_secs_f64() / 5_000.0;
    println!("LIST of 50 clients at once / of one, for each command {:.1}", many / single);
    println!("memory with one client / without {:.2}", one as f64 / bare as f64);
    let most = server.memory("VmHWM");
    println!("most memory with 50 clients / without {:.2}", most as f64 / bare as f64);
    let review = path("review");
    let server = Server::start(&table, &["--review", review.to_str().expect("text")]);
    let mut client = server.connect();
    let line: &[u8] = b"a SUBSCRIBE Folder/00/a-longer-one-001\r\n";
    let edit = time(|| ask(&mut client, line, b"a OK done\r\n".len()));
    println!("SUBSCRIBE with a review file / NOOP {:.1}", edit / noop);
}
