//! Records: their 41 and 52 are what a program of frames answers to the rest.

use std::fs;
use std::path::Path;
use std::process::Command;
use std::thread;

use second::frames::Program;
use second::replay::Verdict;

use crate::common::{
    answers, file, large_session, output_for, path, session_file, text, tunnel, word, Server, SERVE,
};
use crate::streams::random_stream;

/// Splits a record and compares what it says was answered with the second program.
pub fn check(record: &Path) -> (usize, usize) {
    let frames = fs::read_to_string(record).expect("a file");
    let is_answer = |line: &&str| line.starts_with("41") || line.starts_with("52");
    let sent: String =
        frames.lines().filter(|line| !is_answer(line)).map(|line| format!("{line}\n")).collect();
    let recorded: Vec<&str> = frames.lines().filter(is_answer).collect();
    let mut answered = Vec::new();
    second::frames::run(sent.as_bytes(), &mut answered).expect("a run");
    assert_eq!(text(&answered).lines().collect::<Vec<_>>(), recorded);
    // After the rows and the entries a command and its answer stand in turn.
    let turns: Vec<&str> = frames
        .lines()
        .skip_while(|line| line.starts_with("4D") || line.starts_with("4E"))
        .collect();
    assert!(turns.chunks(2).all(|turn| turn[0].starts_with("43") && is_answer(&turn[1])));
    assert!(replays(&frames), "{frames}");
    let refused = recorded.iter().filter(|line| line.starts_with("52")).count();
    (recorded.len() - refused, refused)
}

/// Whether the second program's replay agrees with the frames after the rows and entries (document 02, W14).
fn replays(frames: &str) -> bool {
    let mut program = Program::default();
    let mut log = frames;
    while let Some((frame, rest)) =
        log.split_once('\n').filter(|(frame, _)| frame.starts_with("4D") || frame.starts_with("4E"))
    {
        assert!(program.answer(frame.as_bytes()).is_none(), "{frame}");
        log = rest;
    }
    let mut store = program.records().expect("a table that passes").into_owned();
    store.lend(|lent| second::replay(lent, &program.namespaces, log.as_bytes())) == Verdict::Agree
}

#[test]
fn a_tunnel_is_recorded() {
    let (table, record) = (session_file(), path("record"));
    let mut stream = random_stream(5, 20_000);
    stream.extend_from_slice(b"\r\nz LIST \"\" *\r\n");
    tunnel(&["--record", word(&record), word(&table)], &stream);
    let (answered, refused) = check(&record);
    assert!(answered > 20 && refused > 20, "{answered} {refused}");
}

/// The commands of several connections stand in the order in which they were decided.
#[test]
fn connections_are_recorded() {
    let (table, record, review) = (session_file(), path("record"), path("review"));
    // What the review file holds belongs to the table at the start of the record.
    tunnel(&["--review", word(&review), word(&table)], b"a SUBSCRIBE before\r\n");
    let server = Server::start(&table, &["--record", word(&record), "--review", word(&review)]);
    thread::scope(|scope| {
        for number in 0..8 {
            let mut client = server.connect();
            scope.spawn(move || {
                for turn in 0..20 {
                    client.command(format!("a SUBSCRIBE n{number}-{turn}\r\n").as_bytes());
                    client.command(b"b LSUB \"\" *\r\n");
                    client.command(format!("c UNSUBSCRIBE n{number}-{}\r\n", turn / 2).as_bytes());
                    client.command(b"d NOOP\r\n");
                }
            });
        }
    });
    drop(server);
    assert_eq!(check(&record), (8 * 20 * 3, 8 * 20));
}

/// A frame of 41 has at most 16,384 bytes of an answer, so a longer one is refused while a record is
/// written.
#[test]
fn answers_that_are_too_long_for_a_frame() {
    let (table, record) = (file("large.session", large_session()), path("record"));
    let input = b"a LIST \"\" *\r\nb LIST \"\" %\r\n";
    let told = answers(&tunnel(&["--record", word(&record), word(&table)], input));
    let expected = "a NO [refusal 9] the answer, or the line, is longer than its buffer\r\n\
                    * LIST (\\NonExistent \\HasChildren) \"/\" \"Folder\"\r\nb OK done\r\n";
    assert_eq!(told, expected);
    assert_eq!(check(&record), (1, 1));
    let told = answers(&tunnel(&[word(&table)], input));
    assert!(told.len() > 16_384 && told.contains("\r\na OK done\r\n"));
}

#[test]
fn a_record_is_not_written_over() {
    let (table, record) = (session_file(), file("record", "what is there"));
    let output = tunnel(&["--record", word(&record), word(&table)], b"");
    assert_eq!(output.status.code(), Some(2));
    assert_eq!(fs::read_to_string(record).expect("a file"), "what is there");
}

/// A record that cannot be begun leaves no file, so that the next start can begin it.
#[test]
fn a_full_disk_leaves_no_record() {
    let (table, record) = (file("large.session", large_session()), path("record"));
    let words = [SERVE, "--record", word(&record), word(&table)];
    let mut command = Command::new("/bin/bash");
    // No file may have more than 2,048 bytes, and the rows need more.
    command.args(["-c", "trap '' XFSZ; ulimit -f 2; exec \"$@\"", "bash"]).args(words);
    let output = output_for(command, b"a NOOP\r\n");
    let told = text(&output.stderr);
    assert_eq!(output.status.code(), Some(2), "{told}");
    assert!(told.contains("File too large") && output.stdout.is_empty(), "{told}");
    assert!(!record.exists());
    assert_eq!(answers(&tunnel(&words[1..], b"a NOOP\r\n")), "a OK done\r\n");
    assert_eq!(check(&record), (0, 1));
}

/// The name of a record holds the time of the start where it says so, and the server says which it is.
#[test]
fn a_record_with_the_date() {
    let (table, folder) = (session_file(), path("records"));
    fs::create_dir(&folder).expect("a folder");
    let pattern = folder.join("night-%Y-%m-%dT%H%M%SZ-100%%");
    let output = tunnel(&["--record", word(&pattern), word(&table)], b"a NOOP\r\n");
    let entry =
        fs::read_dir(&folder).expect("a folder").next().expect("a record").expect("a record");
    let name = entry.file_name().into_string().expect("text");
    let is_dated =
        name.chars().map(|c| if c.is_ascii_digit() { '9' } else { c }).collect::<String>();
    assert_eq!(is_dated, "night-9999-99-99T999999Z-999%");
    assert!(
        text(&output.stderr).contains(&format!("serve: the record is {}\n", word(&entry.path())))
    );
    assert_eq!(check(&entry.path()), (0, 1));
}
