//! The figures of docs/PERFORMANCE.md, as ratios: `cargo test --release -p replay figures -- --ignored --nocapture`.

use std::time::Instant;

use formats::frames::Frame;
use formats::sizes::PROGRAM_ANSWER;
use luspemaro::{Replay, Verdict};
use replay::{in_stack, Following, Pieces, Start};

use crate::common::*;

/// Frames of the log: a block of commands with their answers, again and again. Its edits leave the table as it was.
const FRAMES: usize = 1_000_000;
/// As `./replay` reads a log.
const PIECE: usize = 1 << 16;
const ROUNDS: usize = 25;

/// Rows, and a block of commands with their answers.
fn night(rows: usize) -> (Start, Vec<u8>) {
    let row = |number: usize| {
        let flags = ["exists subscribed", "exists", "exists drafts", "subscribed"][number % 4];
        format!("mailbox Folder/{:02}/letters-{number:03} {flags}\n", number / 10)
    };
    let session: String = (0..rows).map(row).collect();
    let commands = b"a LIST \"\" %\r\nb LIST (SUBSCRIBED RECURSIVEMATCH) \"\" %\r\nc LSUB \"Folder/00/\" *\r\nd NAMESPACE\r\n\
        e SUBSCRIBE Folder/New\r\nf LIST \"Folder/\" % RETURN (CHILDREN)\r\ng UNSUBSCRIBE Folder/New\r\nh NOOP\r\n";
    let record = path("night.frames");
    let account = account_of(&session, &record, None);
    (0..25).for_each(|_| drop(converse_with(&account, 0, commands)));
    account.end().expect("a record");
    let record = read(&record).into_bytes();
    let mut pieces = Pieces::new(&record[..], false);
    let start = Start::of_heading(&mut pieces).expect("a heading");
    (start, record[pieces.taken() as usize..].to_vec())
}

/// The commands of a block, with their readers.
fn commands_of(block: &[u8]) -> Vec<(u8, Vec<u8>)> {
    let frames = block.split(|&byte| byte == b'\n');
    let command = |frame: &[u8]| match Frame::decode(frame) {
        Ok(Frame::Command { reader, line }) => Some((reader, line)),
        _ => None,
    };
    let commands: Vec<_> = frames.filter_map(command).collect();
    assert_eq!(commands.len(), 200);
    commands
}

fn timed(call: impl FnOnce()) -> f64 {
    let begin = Instant::now();
    call();
    begin.elapsed().as_secs_f64()
}

#[test]
#[ignore = "measures"]
fn figures() {
    in_stack(|| {
        for rows in [8, 64, 512] {
            measure(rows);
        }
        Ok(())
    })
    .expect("a run");
}

/// The three in turn, round by round, so that what else the machine does falls on all of them.
fn measure(rows: usize) {
    let (start, block) = night(rows);
    let (commands, turns) = (commands_of(&block), FRAMES / 400 / ROUNDS);
    let table = || start.table().expect("a table");
    let (mut replay, mut fed_table) = (Replay::new(), table());
    let mut following = Following::new(&start, table(), false, None);
    let (mut alone, mut out) = (table(), vec![0; PROGRAM_ANSWER]);
    let mut times = [0.0; 3];
    for _ in 0..ROUNDS {
        times[0] += timed(|| {
            for piece in (0..turns).flat_map(|_| block.chunks(PIECE)) {
                fed_table.feed(&mut replay, &start.entries, piece);
            }
        });
        times[1] += timed(|| (0..turns).for_each(|_| following.take(&block).expect("a log")));
        times[2] += timed(|| {
            for (reader, line) in (0..turns).flat_map(|_| &commands) {
                let _ = alone.answer_into(*reader, &start.entries, line, &mut out);
            }
        });
    }
    let last = fed_table.feed(&mut replay, &start.entries, b"").expect("a log");
    assert_eq!((last.verdict, replay.frames()), (Verdict::Agree, FRAMES));
    let followed = following.end().expect("a log");
    assert_eq!((followed.verdict, followed.counts.frames), (Verdict::Agree, FRAMES as u64));
    assert!(fed_table == table() && alone == table());
    let [fed, told, answered] = times;
    let bytes = block.len() * turns * ROUNDS;
    println!("{rows} rows, {FRAMES} frames, {bytes} bytes: replayed in pieces in {fed:.1} s, the commands answered alone {answered:.1} s");
    println!("{rows} rows: replayed in pieces / answered alone {:.2}", fed / answered);
    println!("{rows} rows: replayed with an account / answered alone {:.2}", told / answered);
}
