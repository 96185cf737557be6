//! Replays of logs (document 02, W14): whole, and cut anywhere. Of each the report, the count, every record, every
//! number of the summary and every byte of the area are compared.

use formats::show::show_namespaces;
use luspemaro::Replay;
use second::replay::Recorded;

use super::both::{feed_replay, Lent, Mailboxes, PROVED, REPLAY, SECOND};
use super::tally::{shown, Tally, SEED};
use crate::log_frames::{answer_frame, bad_frames, frames_of_many_lengths, some_pieces, with_lf};
use crate::random::Random;
use crate::replays::{nights_at_the_buffer, small_night, some_night, Night};

/// By these words frames that were read, logs, and the pieces of these are counted.
const FRAMES: &str = "frames";
const LOGS: &str = "logs";
const PIECES: &str = "pieces";
/// After this number of frames all of the rest must have been reached.
const ENOUGH: usize = 10_000;
const NEEDED: [&str; 6] = [AGREES, DIFFERS, STOPPED, EDITED, EDITED_BEFORE_A_STOP, LOGS];
const AGREES: &str = "logs that agree";
const DIFFERS: &str = "logs that differ";
const STOPPED: &str = "logs that are stopped";
const EDITED: &str = "logs that change the table";
const EDITED_BEFORE_A_STOP: &str = "logs that change it and are stopped";

/// Nights of every kind, each whole and cut at random, until enough frames were read.
pub fn nights(tally: &mut Tally) {
    tally.for_each_seed_until(FRAMES, |tally, seed| {
        let mut random = Random::of("library: replays", seed);
        let night = some_night(&mut random);
        let pieces = some_pieces(&mut random, &night.log);
        replay_both(tally, &night, &pieces);
    });
    if tally.reached.times(FRAMES) >= ENOUGH {
        tally.need_all(&NEEDED);
    }
}

/// A small night: every bad frame at every place, frames twice and left out, and answers that differ, with and without
/// a difference before them.
pub fn stops(tally: &mut Tally) {
    let (night, frames) = small_night();
    let mut random = Random::of("library: stops of replays", SEED);
    let differing = answer_frame(&Recorded::Refused(0));
    let mut replay = |frames: &[Vec<u8>]| {
        let mut other = frames.to_vec();
        other.iter_mut().skip(1).take(1).for_each(|answer| answer.clone_from(&differing));
        for log in [frames, &other].map(with_lf) {
            let pieces = some_pieces(&mut random, &log);
            replay_both(tally, &Night { log: log.clone(), ..night.clone() }, &pieces);
        }
    };
    for at in 0..=frames.len() {
        for (_, bad) in bad_frames() {
            replay(&with(&frames, at, &bad));
        }
    }
    for at in 0..frames.len() {
        replay(&with(&frames, at, &frames[at]));
        replay(&[&frames[..at], &frames[at + 1..]].concat());
        replay(&frames[..=at]);
        for other in [Recorded::Lines(Vec::new()), Recorded::Refused(0)] {
            let mut changed = frames.clone();
            changed[at | 1] = answer_frame(&other);
            replay(&changed);
        }
    }
}

/// The frames with one more before the one at a place.
fn with(frames: &[Vec<u8>], at: usize, more: &[u8]) -> Vec<Vec<u8>> {
    [&frames[..at], &[more.to_vec()], &frames[at..]].concat()
}

/// A small night up to every byte of it; fed byte by byte, with what is reported after each; and in two pieces, cut at
/// every place.
pub fn cuts(tally: &mut Tally) {
    let (night, _) = small_night();
    let (mut fed, mut replay) = (Mailboxes::new(night.table.clone()), Replay::new());
    for end in 0..=night.log.len() {
        let (before, after) = night.log.split_at(end);
        replay_both(tally, &night, &[before, after]);
        let beginning = Night { log: before.to_vec(), ..night.clone() };
        let left = replay_both(tally, &beginning, &[before]);
        let piece = &before[before.len().saturating_sub(1)..];
        let reported = feed_replay(&mut fed, &mut replay, &night.namespaces, piece);
        let beside = fed.beside(&left.table);
        let given = [
            (reported, replay.frames(), beside.difference()),
            (Some(left.reported), frames_read(before, left.reported), None),
        ];
        tally.same(|| call_text(&beginning, &[]), given);
    }
}

/// Frames on both sides of every limit, where a command is due and where an answer is; and answers about as long as
/// their buffer.
pub fn limits(tally: &mut Tally) {
    let (night, frames) = small_night();
    let mut random = Random::of("library: replays at the limits", SEED);
    let mut replay = |night: Night| {
        replay_both(tally, &night, &some_pieces(&mut random, &night.log));
    };
    for frame in frames_of_many_lengths() {
        for at in 0..4 {
            let mut changed = frames.clone();
            changed[at].clone_from(&frame);
            replay(Night { log: with_lf(&changed), ..night.clone() });
        }
    }
    nights_at_the_buffer().into_iter().for_each(replay);
}

/// What the second program reports, and both tables at the end.
struct Left {
    reported: Result<u64, u64>,
    table: Mailboxes,
}

/// Replays a log by both libraries, whole, and by the proved one in pieces.
fn replay_both(tally: &mut Tally, night: &Night, pieces: &[&[u8]]) -> Left {
    let Night { table, namespaces, log } = night;
    let start = Mailboxes::new(table.clone());
    let mut whole = start.clone();
    let [proved, second] = [PROVED, SECOND].map(|who| REPLAY[who](&mut whole, namespaces, log));
    tally.same(|| call_text(night, &[]), [(proved, whole.difference()), (second, None)]);

    let (mut cut, mut replay) = (start.beside(&whole), Replay::new());
    let mut fed = Some(Ok(0));
    for piece in pieces {
        fed = feed_replay(&mut cut, &mut replay, namespaces, piece);
    }
    let frames = frames_read(log, second);
    let given = [(fed, replay.frames(), cut.difference()), (Some(second), frames, None)];
    tally.same(|| call_text(night, pieces), given);
    tally.reached.add_times(PIECES, pieces.len());
    reach(tally, second, frames, whole.layout() != table);
    Left { reported: second, table: whole }
}

/// How many frames have ended, those after a stop not counted. A stop is at a frame that has ended, or at the one that
/// lacks its LF.
fn frames_read(log: &[u8], reported: Result<u64, u64>) -> usize {
    let ended = log.iter().filter(|&&byte| byte == b'\n').count();
    reported.map_or_else(|stop| ended.min(stop as usize), |_| ended)
}

fn reach(tally: &mut Tally, reported: Result<u64, u64>, frames: usize, edited: bool) {
    tally.reached.add_times(FRAMES, frames);
    tally.reached.add(LOGS);
    tally.reached.add_held([
        (AGREES, reported == Ok(0)),
        (DIFFERS, reported.is_ok_and(|frame| frame > 0)),
        (STOPPED, reported.is_err()),
        (EDITED, edited),
        (EDITED_BEFORE_A_STOP, edited && reported.is_err()),
    ]);
}

fn call_text(night: &Night, pieces: &[&[u8]]) -> String {
    let lengths: Vec<usize> = pieces.iter().map(|piece| piece.len()).collect();
    let table = Mailboxes::new(night.table.clone());
    let (table, list) = (Lent::Records(&table), show_namespaces(&night.namespaces));
    let log = shown(&night.log);
    format!("replay: pieces {lengths:?}, table, namespace list and log\n{table}{list}{log}\n")
}
