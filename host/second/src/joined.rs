//! The line of a joined command (document 02, W11), from its parts, so that a collector can send one
//! request for two: a tag, a set of options, a reference and patterns.
//!
//! It is always extended: with a selection list and patterns in parentheses, and with RETURN where a return
//! option is asked. What is written is refused with none of 3 to 8.

use crate::command::{canonical_patterns, Return, Selection};
use crate::cursor::is_tag;
use crate::line::{push_words, put_answer, CRLF};
use crate::literal::MAX_LITERAL;
use crate::quoted::push_quoted;
use crate::refusal::Refusal;
use crate::shape::{is_text_byte, MAX_LINE};

/// The highest number of a set of options: all seven.
pub const MAX_OPTIONS: u8 = 0x7F;

/// The selection options and the return options of a number, by its lower seven bits.
pub fn options_of(number: u8) -> (Selection, Return) {
    let has = |bit: u8| number & (1 << bit) != 0;
    let selection = Selection {
        subscribed: has(0),
        remote: has(1),
        recursive_match: has(2),
        special_use: has(3),
    };
    (selection, Return { subscribed: has(4), children: has(5), special_use: has(6) })
}

/// Writes the joined command of these parts at the start of a lent buffer, and gives its length.
///
/// Refusals "in the server's order": 3 where no line of 2,048 bytes holds it, 4 for what is no tag and for no
/// pattern, 6 for a number that is no set of options, 7, 8, then 9. A refusal changes no byte of `out`, and
/// bytes after the line stay.
pub fn join(
    tag: &[u8],
    options: u8,
    reference: &[u8],
    patterns: &[&[u8]],
    out: &mut [u8],
) -> Result<usize, Refusal> {
    let parts = Parts { tag, options, reference, patterns, is_filled: true };
    put_answer(&parts.judged_line()?, out)
}

/// [`join`] with a lent list of patterns, "each with a length byte". A list that they do not fill, the last
/// of them cut short by its end, is 4.
pub fn join_packed(
    tag: &[u8],
    options: u8,
    reference: &[u8],
    list: &[u8],
    out: &mut [u8],
) -> Result<usize, Refusal> {
    let (patterns, is_filled) = unpacked(list);
    let parts = Parts { tag, options, reference, patterns: &patterns, is_filled };
    put_answer(&parts.judged_line()?, out)
}

struct Parts<'p> {
    tag: &'p [u8],
    options: u8,
    reference: &'p [u8],
    patterns: &'p [&'p [u8]],
    /// Whether the patterns fill the list that they are lent in.
    is_filled: bool,
}

impl Parts<'_> {
    /// The line, or the first refusal.
    fn judged_line(&self) -> Result<Vec<u8>, Refusal> {
        let line = self.line().filter(|line| line.len() <= MAX_LINE).ok_or(Refusal::LineShape)?;
        if !is_tag(self.tag) || self.patterns.is_empty() || !self.is_filled {
            return Err(Refusal::Grammar);
        }
        if self.options > MAX_OPTIONS {
            return Err(Refusal::UnknownOption);
        }
        if !options_of(self.options).0.is_lawful() {
            return Err(Refusal::RecursiveMatchAlone);
        }
        canonical_patterns(self.reference, self.patterns, 0).map_err(|fault| fault.refusal)?;
        Ok(line)
    }

    /// tag " LIST (" options ") " reference " (" patterns ")" [" RETURN (" options ")"] CR LF, of any length;
    /// none where a string has no way to be written.
    fn line(&self) -> Option<Vec<u8>> {
        let (selection, returned) = options_of(self.options);
        let mut line = [self.tag, b" LIST ("].concat();
        push_selection(&mut line, selection);
        line.extend_from_slice(b") ");
        push_string(&mut line, self.reference)?;
        line.extend_from_slice(b" (");
        for (at, pattern) in self.patterns.iter().enumerate() {
            line.extend_from_slice(if at == 0 { b"" } else { b" " });
            push_string(&mut line, pattern)?;
        }
        line.push(b')');
        push_return(&mut line, returned);
        line.extend_from_slice(CRLF);
        Some(line)
    }
}

/// In the order in which the collector's walk writes them.
fn push_selection(line: &mut Vec<u8>, selection: Selection) {
    let Selection { subscribed, remote, recursive_match, special_use } = selection;
    let words: [(bool, &[u8]); 4] = [
        (subscribed, b"SUBSCRIBED"),
        (recursive_match, b"RECURSIVEMATCH"),
        (special_use, b"SPECIAL-USE"),
        (remote, b"REMOTE"),
    ];
    push_words(line, &words, |is_given| is_given);
}

/// " RETURN (" options ")", "RETURN only where a return option is asked".
fn push_return(line: &mut Vec<u8>, returned: Return) {
    let Return { subscribed, children, special_use } = returned;
    let words: [(bool, &[u8]); 3] =
        [(subscribed, b"SUBSCRIBED"), (children, b"CHILDREN"), (special_use, b"SPECIAL-USE")];
    if words.iter().any(|(is_given, _)| *is_given) {
        line.extend_from_slice(b" RETURN (");
        push_words(line, &words, |is_given| is_given);
        line.push(b')');
    }
}

/// "A string stands in quotes, and as a literal where a byte cannot stand there"; none where it can be no
/// literal either: 00 stands nowhere, and a literal has at most 1,024 bytes.
fn push_string(line: &mut Vec<u8>, bytes: &[u8]) -> Option<()> {
    if bytes.iter().copied().all(is_text_byte) {
        push_quoted(line, bytes);
    } else if bytes.len() <= MAX_LITERAL && !bytes.contains(&0) {
        line.extend_from_slice(format!("{{{}}}\r\n", bytes.len()).as_bytes());
        line.extend_from_slice(bytes);
    } else {
        return None;
    }
    Some(())
}

/// The patterns of a list, the last of which ends with the list at the latest, and whether they fill it.
fn unpacked(list: &[u8]) -> (Vec<&[u8]>, bool) {
    let mut patterns = Vec::new();
    let mut rest = list;
    while let Some((&length, after)) = rest.split_first() {
        let Some((pattern, others)) = after.split_at_checked(length.into()) else {
            patterns.push(after);
            return (patterns, false);
        };
        patterns.push(pattern);
        rest = others;
    }
    (patterns, true)
}
