//! Check 3: the shape of a command, its literals (document 02, W2) and the text outside of them.

use crate::fault::LineFault;
use crate::line::CRLF;
use crate::literal::{first_line, Literal, MAX_LITERAL};
use crate::refusal::Refusal;

/// Document 01: "At most 2,048 bytes"; W2: "in all", with headers, literals and every CR LF.
pub const MAX_LINE: usize = 2_048;

const CUT_SHORT: &str = "a literal has all the bytes that it announces, and CR LF comes after it";

/// A command whose shape is right: the text outside of its literals, without headers and CR LF.
pub struct Shape<'l> {
    /// The text up to the first literal, or all of it.
    pub start: &'l [u8],
    pub literals: Vec<Literal<'l>>,
}

/// The literals of a command, none of them too long or cut short, and the text outside of them,
/// after whose CR LF nothing is left.
pub fn shape_of(line: &[u8]) -> Result<Shape<'_>, LineFault> {
    if line.len() > MAX_LINE {
        return Err(fault(MAX_LINE, "a command has at most 2,048 bytes"));
    }
    if let Some(at) = line.iter().position(|&byte| byte == 0) {
        return Err(fault(at, "no byte of a command is 00"));
    }
    let shape = split_literals(line)?;
    check_text(shape.start, 0)?;
    for literal in &shape.literals {
        check_text(literal.text_after, literal.text_place)?;
    }
    Ok(shape)
}

fn split_literals(line: &[u8]) -> Result<Shape<'_>, LineFault> {
    let at_end = |rule| move || fault(line.len(), rule);
    let place_of = |rest: &[u8]| line.len() - rest.len();
    let mut first = first_line(line).ok_or_else(at_end("a line ends with CR LF"))?;
    let start = first.text;
    let mut literals: Vec<Literal> = Vec::new();
    while let Some(length) = first.announced {
        if length > MAX_LITERAL {
            let text_place = literals.last().map_or(0, |literal| literal.text_place);
            let rule = "a literal has at most 1,024 bytes";
            return Err(fault(text_place + first.text.len(), rule));
        }
        let split = first.behind.split_at_checked(length);
        let (bytes, after) = split.ok_or_else(at_end(CUT_SHORT))?;
        first = first_line(after).ok_or_else(at_end(CUT_SHORT))?;
        literals.push(Literal { bytes, text_after: first.text, text_place: place_of(after) });
    }
    if !first.behind.is_empty() {
        return Err(fault(place_of(first.behind), "nothing comes after the CR LF of a command"));
    }
    Ok(Shape { start, literals })
}

/// "It ends with CR LF, and before that holds only bytes 01 to 7F other than CR and LF", which
/// since W2 "reads over the text outside literals".
fn check_text(text: &[u8], place: usize) -> Result<(), LineFault> {
    match text.iter().position(|&byte| !is_text_byte(byte)) {
        Some(at) => Err(fault(place + at, "a line holds bytes 01 to 7F (hex), without CR and LF")),
        None => Ok(()),
    }
}

/// Whether a byte may stand outside literals, before the CR LF of a line.
pub fn is_text_byte(byte: u8) -> bool {
    (0x01..=0x7F).contains(&byte) && !CRLF.contains(&byte)
}

fn fault(at: usize, rule: &'static str) -> LineFault {
    LineFault { refusal: Refusal::LineShape, at, rule }
}
