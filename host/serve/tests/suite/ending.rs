//! The end by a signal, too few descriptors, and what a person at a terminal is told.

use std::io::{Read, Write};
use std::net::TcpStream;
use std::process::{Command, Stdio};
use std::sync::atomic::{AtomicBool, Ordering};
use std::thread;
use std::time::{Duration, Instant};

use crate::common::{
    file, large_session, path, session_file, signal_to, text, word, Server, SERVE,
};

const BYE: &str = "* BYE the server ends\r\n";

/// SIGTERM and SIGINT: each client is told, in the middle of a command too, and all is written.
#[test]
fn signals_end_a_socket() {
    for signal in ["-TERM", "-INT"] {
        let (table, record, log) = (session_file(), path("record"), path("log"));
        let server = Server::start(&table, &["--record", word(&record), "--log", word(&log)]);
        let mut clients: Vec<_> = (0..3).map(|_| server.connect()).collect();
        for client in &mut clients {
            assert_eq!(client.command(b"a SUBSCRIBE x\r\n"), [b"a OK done\r\n"]);
        }
        clients[1].send(b"b LIST \"\" {3}\r\n").expect("open");
        assert_eq!(text(&clients[1].line()), "+ go\r\n");
        let (status, told) = server.end_by(signal);
        assert_eq!((status, told.as_str()), (Some(0), ""));
        for client in clients {
            assert_eq!(text(&client.rest()), BYE);
        }
        let frames = std::fs::read_to_string(&record).expect("a record");
        assert_eq!(frames.lines().filter(|line| line.starts_with("41")).count(), 3);
        let lines = std::fs::read_to_string(&log).expect("a log");
        assert_eq!(lines.matches("server BYE: the server ends\n").count(), 3, "{lines}");
        assert_eq!(lines.matches(" ended: the server ends\n").count(), 3, "{lines}");
        assert!(lines.ends_with(" - - - the server ends\n"), "{lines}");
    }
}

/// A client that reads nothing does not hold the end up for long.
#[test]
fn a_deaf_client_and_the_end() {
    let table = file("large.session", large_session());
    let server = Server::start(&table, &[]);
    let mut deaf = server.connect_raw();
    deaf.set_write_timeout(Some(Duration::from_millis(100))).expect("a socket");
    while deaf.write_all(&b"a LIST \"\" *\r\n".repeat(1_000)).is_ok() {}
    let begin = Instant::now();
    assert_eq!(server.end_by("-TERM").0, Some(0));
    assert!(begin.elapsed() < Duration::from_secs(30), "{:?}", begin.elapsed());
}

#[test]
fn signals_end_a_tunnel() {
    for signal in ["-TERM", "-INT"] {
        let mut command = Command::new(SERVE);
        command.arg(session_file()).stdin(Stdio::piped()).stdout(Stdio::piped());
        let mut child = command.stderr(Stdio::null()).spawn().expect("a start");
        let (mut stdin, mut stdout) =
            (child.stdin.take().expect("in"), child.stdout.take().expect("out"));
        stdin.write_all(b"a NOOP\r\nb NO").expect("open");
        let mut told = Vec::new();
        while !told.ends_with(b"a OK done\r\n") {
            let mut byte = [0];
            stdout.read_exact(&mut byte).expect("an answer");
            told.push(byte[0]);
        }
        signal_to(child.id(), signal);
        let mut rest = String::new();
        stdout.read_to_string(&mut rest).expect("text");
        assert_eq!((rest.as_str(), child.wait().expect("an end").code()), (BYE, Some(0)));
    }
}

/// Too few descriptors are reported when it begins and when it is over; who comes then is served.
#[test]
fn too_few_descriptors() {
    let table = session_file();
    let mut server = Server::start_after("ulimit -n 20", &[word(&table)]);
    let waiting: Vec<_> = (0..30).map(|_| server.connect_raw()).collect();
    let told = server.told_line();
    assert!(told.starts_with("serve: a connection cannot be taken: Too many open files"), "{told}");
    // Time for many a try, none of which is reported.
    thread::sleep(Duration::from_secs(1));
    drop(waiting);
    let (address, process, is_over) = (server.address, server.id(), AtomicBool::new(false));
    thread::scope(|scope| {
        // Connections that come one after another, until the trouble is over; or until nothing is told for long.
        scope.spawn(|| {
            let begin = Instant::now();
            while !is_over.load(Ordering::SeqCst) && begin.elapsed() < Duration::from_secs(60) {
                let greeted =
                    TcpStream::connect(address).and_then(|mut stream| stream.read(&mut [0; 9]));
                drop(greeted);
                thread::sleep(Duration::from_millis(200));
            }
            if !is_over.load(Ordering::SeqCst) {
                signal_to(process, "-TERM");
            }
        });
        let told = server.told_line();
        is_over.store(true, Ordering::SeqCst);
        assert!(told.starts_with("serve: connections are served again, after "), "{told}");
    });
    assert_eq!(server.end_by("-TERM"), (Some(0), String::new()));
}

/// Who sends LF alone learns why nothing comes, once; the bytes are fed as they are.
#[test]
fn a_person_at_a_terminal() {
    let server = Server::start(&session_file(), &[]);
    let mut client = server.connect();
    client.send(b"a NOOP\n").expect("open");
    assert!(text(&client.line()).starts_with("* BAD a line ended in LF without CR"));
    // The LF is a byte of the command, which the library refuses.
    client.send(b"b NOOP\n").expect("open");
    client.send(b"\r\n").expect("open");
    assert!(text(&client.line()).starts_with("a BAD [refusal 3] "));
    assert_eq!(client.command(b"c NOOP\r\n"), [b"c OK done\r\n"]);
}
