//! The three ways in which a string stands in a command: bare, in quotes, as a literal.

use formats::quoted::push_quoted;

use crate::random::Random;

/// A string, bare where it may stand so and chance wants it, or a literal, or in quotes;
/// `also_bare` may stand bare too.
pub fn push_string(line: &mut Vec<u8>, random: &mut Random, text: &[u8], also_bare: &[u8]) {
    let may_be_bare = |byte: &u8| {
        also_bare.contains(byte) || byte.is_ascii_graphic() && !b"(){%*\"\\".contains(byte)
    };
    if !text.is_empty() && text.iter().all(may_be_bare) && random.percent(60) {
        line.extend_from_slice(text);
    } else if random.percent(20) {
        push_literal(line, random, text);
    } else {
        push_quoted(line, text);
    }
}

/// A literal: its header, now and then with zeros before the number, and its bytes.
pub fn push_literal(line: &mut Vec<u8>, random: &mut Random, bytes: &[u8]) {
    let zeros = if random.percent(10) { random.within(1..=9) } else { 0 };
    line.extend_from_slice(header_of(bytes.len(), zeros).as_bytes());
    line.extend_from_slice(bytes);
}

/// The header of a literal, zeros before the number, and its CR LF.
pub fn header_of(length: usize, zeros: usize) -> String {
    format!("{{{}{length}}}\r\n", "0".repeat(zeros))
}
