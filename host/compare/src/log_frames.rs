//! Frames of a log (document 02, W14): those of an exchange, those that stop a log, and those at the limits; and a log
//! in pieces.

use formats::frames::{self, ANSWER, COMMAND, ENTRY, MAX_DIGITS, REFUSAL, ROW, WALK};
use formats::hex::hex_of;
use second::replay::{Exchange, Recorded, MAX_ANSWER_DIGITS};

use crate::random::Random;

/// About how many pieces a long log has at most.
const MANY: usize = 250;

/// The two frames of an exchange, without their LF.
pub fn frames_of(exchange: &Exchange) -> [Vec<u8>; 2] {
    let command = [&[COMMAND, exchange.reader], exchange.line.as_slice()].concat();
    [hex_of(&command), answer_frame(&exchange.recorded)]
}

pub fn answer_frame(recorded: &Recorded) -> Vec<u8> {
    frames::answer_frame(match recorded {
        Recorded::Lines(lines) => Ok(lines),
        Recorded::Refused(number) => Err(*number),
    })
}

/// Frames that stop a log wherever they stand, and what is wrong with each.
pub fn bad_frames() -> Vec<(&'static str, Vec<u8>)> {
    let texts: [(&str, &[u8]); 20] = [
        ("empty", b""),
        ("one digit", b"4"),
        ("43 without a reader", b"43"),
        ("52 without a byte", b"52"),
        ("52 with two bytes", b"520102"),
        ("43 with an odd digit", b"4300610"),
        ("41 with an odd digit", b"410"),
        ("52 with an odd digit", b"52010"),
        ("no digit", b"4300G1"),
        ("no digit in 41", b"41g0"),
        ("a space", b"43 00"),
        ("a space at the front", b" 41"),
        ("a CR", b"4300\r"),
        ("a CR after an answer", b"5203\r"),
        ("0x", b"0x4300"),
        ("another first byte", b"42"),
        ("a first byte in other bits", b"C100"),
        ("a NUL", b"\x00"),
        ("bytes above 7F", b"\xFF\xC3\xA9"),
        ("half of a digit pair of 41", b"4"),
    ];
    let made = [
        ("4D", hex_of(&[ROW, 0, 1, 0xFF, 1, b'a'])),
        ("4E", hex_of(&[ENTRY, 0, 0, b'/'])),
        ("57", hex_of(&[WALK, 0, 0])),
        ("43 of 4,104 digits", digits(COMMAND, MAX_DIGITS + 2)),
        ("43 of 4,103 digits", digits(COMMAND, MAX_DIGITS + 1)),
        ("52 of 4,102 digits", digits(REFUSAL, MAX_DIGITS)),
        ("57 of 32,770 digits", digits(WALK, MAX_ANSWER_DIGITS)),
        ("41 of 32,772 digits", digits(ANSWER, MAX_ANSWER_DIGITS + 2)),
        ("41 of 32,771 digits", digits(ANSWER, MAX_ANSWER_DIGITS + 1)),
    ];
    texts.map(|(name, text)| (name, text.to_vec())).into_iter().chain(made).collect()
}

/// Frames at their longest, with what they are: each is readable where it is due.
pub fn longest_frames() -> [(&'static str, Vec<u8>); 3] {
    [
        ("43 of 4,102 digits", digits(COMMAND, MAX_DIGITS)),
        ("41 of 4,104 digits", digits(ANSWER, MAX_DIGITS + 2)),
        ("41 of 32,770 digits", digits(ANSWER, MAX_ANSWER_DIGITS)),
    ]
}

/// Frames of every first byte that a log or a session has, with lengths on both sides of each limit.
pub fn frames_of_many_lengths() -> Vec<Vec<u8>> {
    let around = |limit: usize| limit - 2..=limit + 3;
    let lengths = (2..=6).chain(around(MAX_DIGITS)).chain(around(MAX_ANSWER_DIGITS));
    let lengths: Vec<usize> = lengths.chain([2 * MAX_ANSWER_DIGITS, 1 << 16]).collect();
    let firsts = [COMMAND, ANSWER, REFUSAL, WALK, ROW, ENTRY];
    firsts.iter().flat_map(|&first| lengths.iter().map(move |&one| digits(first, one))).collect()
}

/// A frame of a first byte and zeros, of so many digits.
fn digits(first: u8, length: usize) -> Vec<u8> {
    let mut digits = hex_of(&[first]);
    digits.resize(length, b'0');
    digits
}

/// Frames as a log.
pub fn with_lf(frames: &[Vec<u8>]) -> Vec<u8> {
    frames.iter().flat_map(|frame| [frame.as_slice(), b"\n"].concat()).collect()
}

/// A log in pieces, cut at random: into two, into a few, or into many, of a few bytes each where the log is short.
pub fn some_pieces<'l>(random: &mut Random, log: &'l [u8]) -> Vec<&'l [u8]> {
    let many = log.len() / MANY;
    let most = [log.len() + 1, 3_000, many.max(40), many.max(3)][random.below(4)];
    let (mut pieces, mut rest) = (Vec::new(), log);
    while !rest.is_empty() {
        let (piece, after) = rest.split_at(random.below(most).min(rest.len()));
        pieces.push(piece);
        rest = after;
    }
    if random.percent(30) {
        pieces.push(b"");
    }
    pieces
}
