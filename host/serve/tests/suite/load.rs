//! Many clients, slow ones, and ones that send anything: nothing is lost, and memory is bounded. The long
//! run is `--ignored`.

use std::io::{Read, Write};
use std::path::Path;
use std::thread;
use std::time::{Duration, Instant};

use luspemaro::Reader;
use serve::Rooms;

use crate::common::{file, large_session, session_file, table_of, text, Client, Server};
use crate::streams::{answered, random_stream};

/// Kilobytes of memory that no server may need, at whatever load.
const MOST_MEMORY: u64 = 32_768;
const LIST: &[u8] = b"a LIST \"\" *\r\n";
const LOGOUT: &[u8] = b"z LOGOUT\r\n";
const LOGGED_OUT: &str = "* BYE Luspemaro\r\nz OK done\r\n";
/// Longer than any test takes.
const LONG: Duration = Duration::from_secs(60);

/// The answer to a command, by the library alone.
pub fn expected(table: &Path, line: &[u8]) -> Vec<u8> {
    let mut table = table_of(table, Rooms::WIDE);
    let mut out = vec![0; Rooms::WIDE.answer];
    let length = table.answer(Reader::EDITOR, line, &mut out).expect("an answer").length;
    out.truncate(length);
    out
}

fn log_out(mut client: Client) {
    client.send(LOGOUT).expect("open");
    assert_eq!(text(&client.rest()), LOGGED_OUT);
}

fn check_memory(server: &Server) {
    let memory = server.memory("VmHWM");
    assert!(memory < MOST_MEMORY, "{memory} kB");
}

fn one_after_another(connections: usize) {
    let table = session_file();
    let answer = expected(&table, LIST);
    let server = Server::start(&table, &[]);
    for _ in 0..connections {
        let mut client = server.connect();
        assert_eq!(client.command(LIST).concat(), answer);
        log_out(client);
    }
    check_memory(&server);
}

/// Each client sends four commands at once, then reads the four answers.
fn at_once(connections: usize, rounds: usize) {
    let table = file("large.session", large_session());
    let answer = expected(&table, LIST);
    let server = Server::start(&table, &[]);
    let clients: Vec<Client> = (0..connections).map(|_| server.connect()).collect();
    thread::scope(|scope| {
        for mut client in clients {
            scope.spawn(|| {
                for _ in 0..rounds {
                    client.send(&LIST.repeat(4)).expect("open");
                    for _ in 0..4 {
                        assert_eq!(client.bytes(answer.len()), answer);
                    }
                }
                log_out(client);
            });
        }
    });
    check_memory(&server);
}

/// What comes back for a stream is what the same bytes are answered in process, to the last byte.
fn random_bytes(length: usize) {
    let mut stream = random_stream(length as u64, length);
    // Whatever was begun is ended: a literal has at most 1,024 bytes.
    stream.extend([b'x'; 1_100]);
    stream.extend_from_slice(b"\r\n\r\n");
    stream.extend_from_slice(LOGOUT);
    let table = session_file();
    let record = crate::common::path("record");
    // With a record the rooms are the program's, as in process.
    let server = Server::start(&table, &["--record", record.to_str().expect("text")]);
    let mut reading = server.connect_raw();
    let mut writing = reading.try_clone().expect("a socket");
    let told = thread::scope(|scope| {
        scope.spawn(|| writing.write_all(&stream).expect("open"));
        let mut told = Vec::new();
        reading.read_to_end(&mut told).expect("an end");
        told
    });
    assert!(text(&told).ends_with(LOGGED_OUT));
    assert!(told == answered(&stream, usize::MAX), "the same bytes");
    check_memory(&server);
    drop(server);
    std::fs::remove_file(record).expect("a file");
}

#[test]
fn connections_one_after_another() {
    one_after_another(1_000);
}

#[test]
fn connections_at_once() {
    at_once(50, 4);
}

#[test]
fn any_bytes() {
    random_bytes(500_000);
}

#[test]
#[ignore = "long: some 20 seconds"]
fn long_run() {
    one_after_another(20_000);
    at_once(50, 200);
    random_bytes(10_000_000);
}

/// A client that sends a byte at a time is answered as any other, and holds no other up.
#[test]
fn a_byte_at_a_time() {
    let table = session_file();
    let answer = expected(&table, LIST);
    let server = Server::start(&table, &[]);
    let mut slow = server.connect();
    let mut quick = server.connect();
    for (number, byte) in LIST.repeat(10).into_iter().enumerate() {
        slow.send(&[byte]).expect("open");
        if number % LIST.len() == 3 {
            assert_eq!(quick.command(LIST).concat(), answer);
        }
    }
    for _ in 0..10 {
        assert_eq!(slow.bytes(answer.len()), answer);
    }
    log_out(slow);
    log_out(quick);
}

/// Clients that never read are sent no more than their sockets take; the server reads no more from
/// them, ends them when they have been idle for long enough, and serves others meanwhile.
#[test]
fn clients_that_never_read() {
    let table = file("large.session", large_session());
    let answer = expected(&table, LIST);
    let server = Server::start(&table, &["--idle", "1"]);
    let deaf: Vec<_> = (0..8).map(|_| server.connect_raw()).collect();
    for mut stream in &deaf {
        stream.set_write_timeout(Some(Duration::from_millis(20))).expect("a socket");
        let commands = LIST.repeat(1_000);
        // Until nothing more is taken.
        for _ in 0..10_000 {
            if stream.write_all(&commands).is_err() {
                break;
            }
        }
    }
    let mut client = server.connect();
    assert_eq!(client.command(LIST).concat(), answer);
    let begin = Instant::now();
    while server.threads() > 1 {
        assert!(begin.elapsed() < LONG, "{} threads", server.threads());
        thread::sleep(Duration::from_millis(20));
    }
    check_memory(&server);
}

/// A client that sends nothing is told so.
#[test]
fn idle_clients() {
    let server = Server::start(&session_file(), &["--idle", "2"]);
    let mut client = server.connect();
    client.send(b"a NOOP\r\nb NO").expect("open");
    let bye = "* BYE a command was not finished for too long\r\n";
    assert_eq!(text(&client.rest()), format!("a OK done\r\n{bye}"));
    let mut client = server.connect();
    client.send(b"a NOOP\r\n").expect("open");
    assert_eq!(text(&client.rest()), "a OK done\r\n* BYE nothing came for too long\r\n");
}

/// A client that goes on sending, and never ends a command, is ended too: the time counts from its last whole
/// command. One that sends whole commands is not.
#[test]
fn a_command_without_an_end() {
    let server = Server::start(&session_file(), &["--idle", "4"]);
    let (mut slow, mut steady) = (server.connect(), server.connect());
    let begin = Instant::now();
    slow.send(b"a LIST \"\" ").expect("open");
    while slow.send(b"x").is_ok() {
        assert!(begin.elapsed() < LONG, "it is never ended");
        assert_eq!(steady.command(b"s NOOP\r\n"), [b"s OK done\r\n"]);
        thread::sleep(Duration::from_millis(100));
    }
    assert!(begin.elapsed() >= Duration::from_secs(4), "{:?}", begin.elapsed());
    log_out(steady);
}

/// One client more than the limit is turned away, until another has gone.
#[test]
fn too_many_clients() {
    let server = Server::start(&session_file(), &["--connections", "2"]);
    let (first, mut second) = (server.connect(), server.connect());
    let mut told = String::new();
    server.connect_raw().read_to_string(&mut told).expect("text");
    assert_eq!(told, "* BYE too many connections, try again later\r\n");
    assert_eq!(second.command(b"a NOOP\r\n"), [b"a OK done\r\n"]);
    log_out(first);
    let begin = Instant::now();
    loop {
        let mut greeting = [0; 9];
        server.connect_raw().read_exact(&mut greeting).expect("a greeting");
        if greeting == *b"* PREAUTH" {
            break;
        }
        assert!(begin.elapsed() < LONG, "{greeting:?}");
    }
}

/// Lines whose parentheses nest as deep as they may, which need the most stack.
#[test]
fn the_deepest_lines() {
    let open = "(".repeat(1_000);
    let close = ")".repeat(1_000);
    let nested = format!("a LIST (X {open}x{close}) \"\" *\r\n");
    let unclosed = format!("a LIST (X {}\r\n", "(".repeat(2_036));
    let server = Server::start(&session_file(), &[]);
    let mut client = server.connect();
    for (line, start) in [(nested, "a BAD [refusal 6] "), (unclosed, "a BAD [refusal 4] ")] {
        assert!(line.len() <= 2_048);
        let told = client.command(line.as_bytes()).concat();
        assert!(text(&told).starts_with(start), "{}", text(&told));
    }
    log_out(client);
}
