//! Literals (document 02, W2): `{n}` CR LF, then n bytes that count as a string.
//!
//! Here are the lines that a command is made of, as the command reader and the feeder see them:
//! which CR LF ends a line, and whether the line announces a literal. What is refused is theirs.

use crate::line::CRLF;

/// W2: "`{n}` CR LF with n up to 1,024".
pub const MAX_LITERAL: usize = 1_024;

/// A literal, and the text from there to the next one or to the end of the command.
pub struct Literal<'l> {
    pub bytes: &'l [u8],
    pub text_after: &'l [u8],
    /// The place of that text in the command.
    pub text_place: usize,
}

/// The line that bytes outside literals start with.
pub struct FirstLine<'l> {
    /// Without its header, if it has one, and without its CR LF.
    pub text: &'l [u8],
    /// How many bytes its header announces. A number that is too large for this is the largest.
    pub announced: Option<usize>,
    /// What stands behind its CR LF, the literal first.
    pub behind: &'l [u8],
}

/// The line that ends with the first CR LF, or none without a CR LF.
pub fn first_line(bytes: &[u8]) -> Option<FirstLine<'_>> {
    let end = bytes.windows(CRLF.len()).position(|pair| pair == CRLF)?;
    let (line, behind) = (&bytes[..end], &bytes[end + CRLF.len()..]);
    Some(match split_header(line) {
        Some((text, announced)) => FirstLine { text, announced: Some(announced), behind },
        None => FirstLine { text: line, announced: None, behind },
    })
}

/// "Any line that ends, outside literals, in `{`, one or more digits and `}` is read so, wherever
/// that stands": what stands before such an end, and its number.
fn split_header(line: &[u8]) -> Option<(&[u8], usize)> {
    let before_brace = line.strip_suffix(b"}")?;
    let is_digit = |byte: &u8| byte.is_ascii_digit();
    let digits_start = before_brace.iter().rposition(|byte| !is_digit(byte))? + 1;
    let (before_digits, digits) = before_brace.split_at(digits_start);
    let text = before_digits.strip_suffix(b"{")?;
    (!digits.is_empty()).then(|| (text, number_of(digits)))
}

/// Any number of digits, zeros before the number too.
fn number_of(digits: &[u8]) -> usize {
    let next = |number: usize, &digit: &u8| {
        number.saturating_mul(10).saturating_add(usize::from(digit - b'0'))
    };
    digits.iter().fold(0, next)
}
