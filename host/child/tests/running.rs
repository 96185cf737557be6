//! Running a program: its lines, its end, its reports and the time limit.

use std::io::{self, ErrorKind, Write};
use std::path::Path;
use std::thread;
use std::time::{Duration, Instant};

use child::testing::script;
use child::{sender_of, Running, PATIENCE};
use formats::frames::SentFrame;

const ECHO: &str = "/bin/cat";
/// Where scripts are written.
const FOLDER: &str = env!("CARGO_TARGET_TMPDIR");
/// Shorter than any of these tests may take.
const SHORT: Duration = Duration::from_millis(300);

fn start(program: &Path, patience: Duration) -> Running {
    Running::start(program, patience, |_| Ok(())).expect("a start")
}

#[test]
fn lines_and_a_good_end() {
    let frames = ["5700", "4G"].map(|text| SentFrame { text: text.into(), is_cut: false });
    let cut = SentFrame { text: b"57".to_vec(), is_cut: true };
    let sender = sender_of(&[frames.as_slice(), &[cut]].concat());
    let mut running = Running::start(Path::new(ECHO), PATIENCE, sender).expect("a start");
    for line in ["5700\n", "4G\n", "57"] {
        assert_eq!(running.next_line().expect("a line").as_deref(), Some(line.as_bytes()));
    }
    assert!(running.next_line().expect("an end").is_none());
    assert!(running.finish().is_ok());
}

#[test]
fn an_answer_too_many() {
    let running = Running::start(Path::new(ECHO), PATIENCE, |input| input.write_all(b"x\n"));
    let error = running.expect("a start").finish().expect_err("a line is left");
    assert_eq!(error.to_string(), "an answer too many");
}

#[test]
fn bad_ends_and_reports() {
    let programs = [
        ("bad-status", "exit 3", "exit status: 3"),
        ("report", "echo 'the disk is full' >&2", "it reports: the disk is full"),
        ("both", "printf '\\033[2Jno' >&2; exit 1", "exit status: 1; it reports: \\x1b[2Jno"),
        ("much", "yes x | head -c 100000 >&2; exit 1", "exit status: 1; it reports: x\\nx\\n"),
    ];
    for (name, text, expected) in programs {
        let error =
            start(&script(FOLDER, name, text), PATIENCE).finish().expect_err(name).to_string();
        assert!(error.starts_with(expected), "{name}: {error}");
        assert!(error.len() < 20_000, "{name}: {} bytes", error.len());
    }
    assert!(Running::start(Path::new("no-such-program"), PATIENCE, |_| Ok(())).is_err());
}

/// Neither a program that says nothing, nor one that closes its output and stays, is waited for
/// longer than the time limit.
#[test]
fn the_time_limit() {
    for (name, text) in [("silent", "exec sleep 60"), ("stays", "exec >&-; exec sleep 60")] {
        let begin = Instant::now();
        let error = start(&script(FOLDER, name, text), SHORT).finish().expect_err(name);
        assert_eq!(error.kind(), ErrorKind::TimedOut, "{name}: {error}");
        assert!(begin.elapsed() < Duration::from_secs(20), "{name}");
    }
}

/// A program that takes input and has nothing to answer yet is not late, though all of it takes
/// longer than the time limit.
#[test]
fn taking_input_is_no_silence() {
    const LIMIT: Duration = Duration::from_millis(1_500);
    let slowly = |input: &mut dyn Write| -> io::Result<()> {
        for _ in 0..6 {
            input.write_all(b"x")?;
            input.flush()?;
            thread::sleep(LIMIT / 3);
        }
        input.write_all(b"\n")
    };
    let mut running = Running::start(Path::new(ECHO), LIMIT, slowly).expect("a start");
    let line = running.next_line().expect("in time");
    assert_eq!(line.as_deref(), Some(b"xxxxxx\n".as_slice()));
}

/// Input that cannot be read to its end is told, though the program ends well.
#[test]
fn input_that_fails() {
    let fails = |_: &mut dyn Write| Err(io::Error::other("the file is gone"));
    let running = Running::start(Path::new(ECHO), PATIENCE, fails).expect("a start");
    assert_eq!(running.finish().expect_err("no input").to_string(), "the file is gone");
}
