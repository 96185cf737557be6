//! Sessions for W2 (document 02): literals in every place, odd ones, and the limits of them.

use formats::frames::SentFrame;
use formats::quoted::{push_quoted, read_quoted};
use second::command::{MAX_CANONICAL, MAX_PATTERNS};
use second::literal::MAX_LITERAL;
use second::shape::MAX_LINE;

use crate::commands::command;
use crate::random::Random;
use crate::sending::Sending;
use crate::strings::{header_of, push_literal};
use crate::tables::{good_table, names_of};

/// What a literal may hold and other strings may not, what looks like the end of something, and the
/// one byte that no literal holds.
const ODD_CONTENTS: [&[u8]; 13] = [
    b"\r\n",
    b"\r",
    b"\n",
    b"\x80",
    b"\xFF",
    b"\x01",
    b"{3}\r\n",
    b"{0}",
    b"x\r\ny",
    b"\"",
    b")",
    b"\xC3\xA9%",
    b"\0",
];
/// Whole literals with their headers, for places where none may stand.
const LITERALS: [&[u8]; 10] = [
    b"{0}\r\n",
    b"{1}\r\nx",
    b"{1}\r\n{",
    b" {1}\r\n%",
    b"{1}\r\n* ",
    b"{4}\r\nLIST",
    b"{2}\r\n\r\n",
    b"{2}\r\n()",
    b"\"{1}\r\nx\"",
    b"\"{0}\r\n",
];
/// What is not, or not yet, or no longer a literal.
const PIECES: [&[u8]; 13] = [
    b"\"{1}\"",
    b"{1025}\r\n",
    b"{18446744073709551617}\r\nx",
    b"{}\r\n",
    b"{3+}\r\nabc",
    b"{ 3}\r\nabc",
    b"{3}",
    b"{3}\r\n",
    b"{3}\rabc",
    b"{3}\nabc",
    b"\r\n",
    b"{",
    b"}",
];
const ODD_BYTES: &[u8] = b"\x00\x80\xFF\r\n{}0199+ x";

/// Commands whose strings are literals: references, patterns and items of values.
pub fn commands_with_literals(random: &mut Random) -> Vec<SentFrame> {
    let rows = good_table(random, 12);
    let names = names_of(&rows);
    let mut sending = Sending::over(random, &rows);
    sending.commands(40, |random| literal_command(random, &names));
    sending.frames
}

/// Commands with literals that are cut short, changed, or stand where none may.
pub fn odd_commands(random: &mut Random) -> Vec<SentFrame> {
    let rows = good_table(random, 4);
    let names = names_of(&rows);
    let mut sending = Sending::over(random, &rows);
    sending.commands(80, |random| odd_command(random, &names));
    sending.frames
}

/// A command of which most quoted strings are made literals, some with odd contents.
pub fn literal_command(random: &mut Random, names: &[Vec<u8>]) -> Vec<u8> {
    let line = command(random, names);
    let mut rest = line.as_slice();
    let mut made = Vec::new();
    while let Some((&byte, behind)) = rest.split_first() {
        let Some((mut bytes, behind_quotes)) = read_quoted(rest) else {
            made.push(byte);
            rest = behind;
            continue;
        };
        if random.percent(75) {
            if random.percent(15) {
                let at = random.below(bytes.len() + 1);
                bytes.splice(at..at, random.pick(&ODD_CONTENTS).to_vec());
            }
            push_literal(&mut made, random, &bytes);
        } else {
            push_quoted(&mut made, &bytes);
        }
        rest = behind_quotes;
    }
    made
}

/// A command with literals after one or two changes, most often a literal more.
pub fn odd_command(random: &mut Random, names: &[Vec<u8>]) -> Vec<u8> {
    let mut line = literal_command(random, names);
    for _ in 0..random.within(1..=2) {
        let at = random.below(line.len() + 1);
        match random.below(12) {
            0..5 => {
                let at = place_between(random, &line);
                line.splice(at..at, random.pick(&LITERALS).to_vec());
            }
            5 | 6 => drop(line.splice(at..at, random.pick(&PIECES).to_vec())),
            7 => line.extend_from_slice(random.pick(&PIECES)),
            8 => line.truncate(at),
            9 => change_digit(random, &mut line),
            10 if at < line.len() => drop(line.remove(at)),
            _ => line.insert(at, ODD_BYTES[random.below(ODD_BYTES.len())]),
        }
    }
    line
}

/// A place before or behind a space, a parenthesis or a quote, or before the last CR LF.
fn place_between(random: &mut Random, line: &[u8]) -> usize {
    let parts = |&at: &usize| b" ()\"".contains(&line[at]);
    let mut places: Vec<usize> = (0..line.len()).filter(parts).collect();
    places.push(line.len().saturating_sub(2));
    let at = places[random.below(places.len())];
    line.len().min(at + random.below(2))
}

/// One digit of the line more or less, which may belong to a header.
fn change_digit(random: &mut Random, line: &mut [u8]) {
    let digits: Vec<&mut u8> = line.iter_mut().filter(|byte| byte.is_ascii_digit()).collect();
    let count = digits.len().max(1);
    if let Some(digit) = digits.into_iter().nth(random.below(count)) {
        *digit = *random.pick(&[&b'0', &b'1', &b'2', &b'9', &b'+']);
    }
}

/// Lengths of literals, of commands with them and of canonical patterns, and numbers of patterns,
/// each at its limit or one over it.
pub fn limits(random: &mut Random) -> Vec<SentFrame> {
    let mut sending = Sending::new(random);
    sending.table(b"\x00\x01\xFF\x01x");
    for over in 0..2 {
        let literal = |length: usize, byte: &str| header_of(length, 0) + &byte.repeat(length);
        let longest = literal(MAX_LITERAL + over, "r");
        sending.command_text(&format!("a LIST {longest} \"\""));
        sending.command_text(&format!("a LIST \"\" {longest}"));
        sending.command_text(&format!("a LIST (FOO ({longest})) \"\" *"));

        let length = MAX_CANONICAL + over;
        let reference = sending.random.below(length);
        let (first, second) = (literal(reference, "x"), literal(length - reference, "%"));
        sending.command_text(&format!("a LIST {first} {second}"));
        sending.command_text(&format!("a LIST {first} ({{0}}\r\n {second})"));
        sending.command_text(&format!("a LIST {first}{second} x"));

        let empty = "{0}\r\n ".repeat(MAX_PATTERNS - 1 + over);
        sending.command_text(&format!("a LIST \"\" ({empty}{{1}}\r\nx)"));

        fill_commands(&mut sending, over);
        let zeros = sending.random.within(1_400..=1_600);
        sending.command_text(&format!("a LIST \"\" {}x", header_of(1 + over, zeros)));
        sending.command_text(&format!("a LIST \"\" {{{}}}\r\nx", "9".repeat(zeros)));
    }
    sending.frames
}

/// Commands of 2,048 bytes, or one more, filled by a literal, by text behind it, or by digits.
fn fill_commands(sending: &mut Sending, over: usize) {
    let start = format!("abc LIST {}", header_of(MAX_LITERAL, 0) + &"r".repeat(MAX_LITERAL));
    let left = MAX_LINE + over - start.len();
    let literal = left - " {900}\r\n\r\n".len();
    sending.command_text(&format!("{start} {{{literal}}}\r\n{}", "p".repeat(literal)));
    sending.command_text(&format!("{start} {}", "p".repeat(left - " \r\n".len())));
    sending.command_text(&format!("{start} {{{literal}}}\r\n{}", "p".repeat(literal - 2)));
    let zeros = left - " {0}\r\n\r\n".len();
    sending.command_text(&format!("{start} {}", header_of(0, zeros)));
    let cut = left - " {999}\r\n".len();
    sending.command(format!("{start}{} {{999}}\r\n", " ".repeat(cut)).as_bytes());
}
