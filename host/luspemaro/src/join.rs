//! The line of a joined command: one LIST request for two.

use crate::feeder::COMMAND_ROOM;
use crate::list_options::ListOptions;
use crate::raw;
use crate::refusal::Refusal;

/// The longest literal.
const MAX_LITERAL: usize = 1_024;
/// The text of every line around its tag, its options, its strings and RETURN.
const AROUND: &[u8] = b" LIST ()  ()\r\n";
const RETURN: &[u8] = b" RETURN ()";
/// An empty pattern, packed: it counts for no limit but that of 8.
const EMPTY_PATTERN: &[u8] = &[0];

/// Writes one LIST command from its parts at the front of `out`, and gives its length: one request for two
/// that have one reference and the same options, with the patterns of both.
///
/// A string is written in quotes, or as a literal if it has CR, LF or a byte above 7F. Refusals, in this
/// order: 3 where no line of 2,048 bytes holds it, 4 for what is no tag and for no pattern, 7, 8, 9. A pattern
/// of over 255 bytes is 8 at its place in this order. Bytes after the line stay; a refusal changes no byte.
///
/// What is written is refused by [`answer`](crate::answer) with none of 3 to 8. Without RECURSIVEMATCH, and if
/// the two commands are extended and all three accepted, over the same rows and from the same reader, the LIST
/// lines of its answer are those of the two merged in name order with equal lines once.
///
/// ```
/// use luspemaro::{join, ListOptions, Refusal, COMMAND_ROOM};
///
/// let mut out = [0; COMMAND_ROOM];
/// let options = ListOptions::SELECT_SUBSCRIBED | ListOptions::RETURN_CHILDREN;
/// let length = join(b"a", options, b"", &[b"Customers/%", b"Caf\xC3\xA9"], &mut out)?;
/// let line = b"a LIST (SUBSCRIBED) \"\" (\"Customers/%\" {5}\r\nCaf\xC3\xA9) RETURN (CHILDREN)\r\n";
/// assert_eq!(&out[..length], line);
///
/// let alone = ListOptions::SELECT_RECURSIVEMATCH;
/// assert_eq!(join(b"a", alone, b"", &[b"%"], &mut out), Err(Refusal::RecursiveMatchAlone));
/// assert_eq!(join(b"a", options, b"", &[&[b'x'; 256]], &mut out), Err(Refusal::Patterns));
/// # Ok::<(), Refusal>(())
/// ```
pub fn join(
    tag: &[u8],
    options: ListOptions,
    reference: &[u8],
    patterns: &[&[u8]],
    out: &mut [u8],
) -> Result<usize, Refusal> {
    match packed(patterns) {
        Some(list) => join_packed(tag, options.bits(), reference, &list, out),
        None => Err(refusal_of_long(tag, options, reference, patterns)),
    }
}

/// `join` as the archive has it: from the number of a set of options, where another bit than the seven is
/// refused with 6, before 7; and from a packed list, each pattern as a length byte and its bytes, where a list
/// that its patterns do not fill is refused with 4.
///
/// ```
/// use luspemaro::{join_packed, Refusal};
///
/// let mut out = [0; 100];
/// let length = join_packed(b"a", 0, b"", b"\x01%\x05Foo/*", &mut out)?;
/// assert_eq!(&out[..length], b"a LIST () \"\" (\"%\" \"Foo/*\")\r\n");
/// assert_eq!(join_packed(b"a", 0, b"", b"\x01%\x05Foo", &mut out), Err(Refusal::Grammar));
/// assert_eq!(join_packed(b"a", 0x80, b"", b"\x01%", &mut out), Err(Refusal::UnknownOption));
/// # Ok::<(), Refusal>(())
/// ```
pub fn join_packed(
    tag: &[u8],
    options: u8,
    reference: &[u8],
    patterns: &[u8],
    out: &mut [u8],
) -> Result<usize, Refusal> {
    raw::join(tag, options, reference, patterns, out).written()
}

/// Patterns, each after its length; none if a pattern is too long for a length byte.
fn packed(patterns: &[&[u8]]) -> Option<Vec<u8>> {
    let mut list = Vec::new();
    for pattern in patterns {
        list.push(u8::try_from(pattern.len()).ok()?);
        list.extend_from_slice(pattern);
    }
    Some(list)
}

/// Why parts are refused, one pattern of which is too long for the archive's list: 3 where no line of 2,048
/// bytes holds them; else what the archive refuses the other parts with, 4 or 7; else 8.
fn refusal_of_long(
    tag: &[u8],
    options: ListOptions,
    reference: &[u8],
    patterns: &[&[u8]],
) -> Refusal {
    let strings = [reference].into_iter().chain(patterns.iter().copied());
    let strings = strings.map(string_length).sum::<Option<usize>>();
    let spaces = patterns.len() - 1;
    let others = tag.len() + AROUND.len() + options_length(options) + spaces;
    if strings.is_none_or(|strings| others + strings > COMMAND_ROOM) {
        return Refusal::LineShape;
    }
    // This line is shorter than that of all parts.
    let judged = join_packed(tag, options.bits(), b"", EMPTY_PATTERN, &mut [0; COMMAND_ROOM]);
    judged.err().unwrap_or(Refusal::Patterns)
}

/// The bytes that a string takes in a line; none where no line holds it.
fn string_length(string: &[u8]) -> Option<usize> {
    let is_quoted =
        string.iter().all(|byte| matches!(byte, 0x01..=0x7F) && !b"\r\n".contains(byte));
    if is_quoted {
        let backslashes = string.iter().filter(|byte| b"\"\\".contains(byte)).count();
        return Some(string.len() + backslashes + b"\"\"".len());
    }
    let can_stand = string.len() <= MAX_LITERAL && !string.contains(&0);
    can_stand.then(|| format!("{{{}}}\r\n", string.len()).len() + string.len())
}

/// The bytes that the options take in a line, RETURN with its parentheses among them.
fn options_length(options: ListOptions) -> usize {
    let selection = [
        (ListOptions::SELECT_SUBSCRIBED, "SUBSCRIBED"),
        (ListOptions::SELECT_REMOTE, "REMOTE"),
        (ListOptions::SELECT_RECURSIVEMATCH, "RECURSIVEMATCH"),
        (ListOptions::SELECT_SPECIAL_USE, "SPECIAL-USE"),
    ];
    let returned = [
        (ListOptions::RETURN_SUBSCRIBED, "SUBSCRIBED"),
        (ListOptions::RETURN_CHILDREN, "CHILDREN"),
        (ListOptions::RETURN_SPECIAL_USE, "SPECIAL-USE"),
    ];
    let length = |words: &[(ListOptions, &str)]| {
        let given = words.iter().filter(|(option, _)| options.has(*option));
        given.map(|(_, word)| word.len() + b" ".len()).sum::<usize>().saturating_sub(b" ".len())
    };
    match length(&returned) {
        0 => length(&selection),
        words => length(&selection) + RETURN.len() + words,
    }
}
