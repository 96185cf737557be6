//! Patterns: the wildcards and the rule for INBOX.

use crate::name::{DELIMITER, INBOX};

/// Stands for any bytes, none included.
pub const ANY: u8 = b'*';
/// Stands for any bytes but "/", none included.
pub const ANY_IN_LEVEL: u8 = b'%';

/// Whether a name matches a canonical pattern.
///
/// "The name INBOX, alone, is compared after the pattern's letters a to z are raised."
pub fn matches(pattern: &[u8], name: &[u8]) -> bool {
    if name == INBOX {
        wildcards_match(&pattern.to_ascii_uppercase(), name)
    } else {
        wildcards_match(pattern, name)
    }
}

/// Whether levels of hierarchy are asked for: "a pattern ending in "%"" (W1, W5).
pub fn ends_in_percent(pattern: &[u8]) -> bool {
    pattern.ends_with(&[ANY_IN_LEVEL])
}

pub fn is_wildcard(byte: u8) -> bool {
    byte == ANY || byte == ANY_IN_LEVEL
}

/// Bytes before the first wildcard stand for themselves, and a wildcard at the end is decided at
/// once; what is left goes byte by byte.
fn wildcards_match(pattern: &[u8], name: &[u8]) -> bool {
    let fixed = pattern.iter().take_while(|&&byte| !is_wildcard(byte)).count();
    let Some(rest) = name.strip_prefix(&pattern[..fixed]) else {
        return false;
    };
    match &pattern[fixed..] {
        [] => rest.is_empty(),
        [ANY] => true,
        [ANY_IN_LEVEL] => !rest.contains(&DELIMITER),
        wild => rest_matches(wild, rest),
    }
}

/// Keeps, for the pattern read so far, every place of the name where a match of it can end.
/// Each byte of the pattern goes over these places once, so a pattern of p bytes and a name of
/// n take at most p times (n + 1) steps, however many wildcards there are.
fn rest_matches(pattern: &[u8], name: &[u8]) -> bool {
    let mut ends = vec![false; name.len() + 1];
    ends[0] = true;
    for &byte in pattern {
        match byte {
            ANY => extend(&mut ends, name, |_| true),
            ANY_IN_LEVEL => extend(&mut ends, name, |passed| passed != DELIMITER),
            _ => shift(&mut ends, name, byte),
        }
        if !ends.contains(&true) {
            return false;
        }
    }
    ends[name.len()]
}

/// A wildcard: from each end on, further ends as long as the bytes passed are allowed.
fn extend(ends: &mut [bool], name: &[u8], allowed: impl Fn(u8) -> bool) {
    let mut reached = ends[0];
    for (end, &passed) in ends[1..].iter_mut().zip(name) {
        reached = *end || reached && allowed(passed);
        *end = reached;
    }
}

/// A byte that stands for itself: each end moves behind it, or goes.
fn shift(ends: &mut [bool], name: &[u8], byte: u8) {
    ends.copy_within(..name.len(), 1);
    ends[0] = false;
    for (end, &passed) in ends[1..].iter_mut().zip(name) {
        *end &= passed == byte;
    }
}
