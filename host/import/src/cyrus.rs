//! Lists of a Cyrus server, in two forms, line by line:
//!
//! ```text
//! ctl_mboxlist -d          NAME TAB [TYPE " "] PARTITION .. ACL
//! cyradm, listmailbox      NAME " (" attributes ")" *(blanks NAME " (" attributes ")")
//! ```
//!
//! Names are those of the whole server, as an administrator sees them (`user.jane.Sent`), in modified UTF-7.
//! A type is a number, or left out by old servers: 0 is a mailbox, and 1 one on another server.

use formats::rows::Flags;
use formats::text::line_text;

use crate::answer::found_of;
use crate::found::{Found, Said};
use crate::marks::{after_blanks, is_blank, BYTE_ORDER_MARK};
use crate::response::{Response, Word};
use crate::told::Told;

const TAB: u8 = b'\t';
const REMOTE_TYPE: u64 = 1;

/// Everything that a list says. A line that is neither is left out.
pub fn read_cyrus(bytes: &[u8], delimiter: u8, told: &mut Told) -> Vec<Found> {
    let bytes = bytes.strip_prefix(BYTE_ORDER_MARK).unwrap_or(bytes);
    let mut all_found = Vec::new();
    for (number, line) in (1..).zip(bytes.split(|&byte| byte == b'\n')) {
        let line = line.strip_suffix(b"\r").unwrap_or(line);
        let origin = format!("line {number}");
        let found = if line.trim_ascii().is_empty() {
            Some(Vec::new())
        } else if let Some(at) = line.iter().position(|&byte| byte == TAB) {
            dumped(&origin, &line[..at], &line[at + 1..], delimiter, told)
        } else {
            listed(&origin, line, delimiter, told)
        };
        match found {
            Some(found) => all_found.extend(found),
            None if is_prompt(line) => told.note(&origin, "what was asked, not read"),
            None => {
                let reason = format!("neither of the two forms, not read: {}", line_text(line));
                told.not_taken(&origin, &reason);
            }
        }
    }
    all_found
}

/// A line of `ctl_mboxlist -d`.
fn dumped(
    origin: &str,
    name: &[u8],
    rest: &[u8],
    delimiter: u8,
    told: &mut Told,
) -> Option<Vec<Found>> {
    let start = rest.split(|&byte| byte == TAB).next().unwrap_or_default();
    let words: Vec<&[u8]> = start.split(|&byte| byte == b' ').collect();
    let number = str::from_utf8(words[0]).ok().and_then(|word| word.parse::<u64>().ok());
    let flags = match (number, words.as_slice()) {
        (_, [b"", ..]) => return None,
        (None, [_] | [_, _]) | (Some(0), _) => Flags::EXISTS,
        (Some(REMOTE_TYPE), _) => Flags::EXISTS.with(Flags::REMOTE),
        (_, [word, ..]) => {
            let reason = format!("type {} is no mailbox here or elsewhere", line_text(word));
            told.left_out(origin, name, &reason);
            return Some(Vec::new());
        }
        (_, []) => return None,
    };
    if name.contains(&b'^') {
        told.note_name(origin, name, "where the server has unixhierarchysep, ^ stands for a dot");
    }
    let (origin, said) = (origin.to_string(), Said::Exists(flags));
    Some(vec![Found { origin, name: name.to_vec(), delimiter: Some(delimiter), said }])
}

/// `host> words`, as cyradm shows what it was asked.
fn is_prompt(line: &[u8]) -> bool {
    line.split(|&byte| is_blank(byte)).next().is_some_and(|word| word.ends_with(b">"))
}

/// A line of cyradm, which has several mailboxes.
fn listed(origin: &str, line: &[u8], delimiter: u8, told: &mut Told) -> Option<Vec<Found>> {
    let mut responses = Vec::new();
    let mut rest = after_blanks(line);
    while !rest.is_empty() {
        let is_start = |four: &[u8]| four.starts_with(b" (\\") || four.starts_with(b" ()");
        let at = rest.windows(3).position(is_start)?;
        let (name, after) = (&rest[..at], &rest[at + b" (".len()..]);
        let end = after.iter().position(|&byte| byte == b')')?;
        let words = after[..end].split(|&byte| is_blank(byte)).filter(|word| !word.is_empty());
        responses.push(Response {
            word: Word::List,
            attributes: words.map(<[u8]>::to_vec).collect(),
            delimiter: Some(delimiter),
            name: name.to_vec(),
            tags: Vec::new(),
        });
        rest = after_blanks(&after[end + 1..]);
    }
    let found = responses.into_iter().filter_map(|response| found_of(origin, response, told));
    Some(found.collect())
}
