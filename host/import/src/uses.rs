//! What a server has in its configuration and no store has: special uses and automatic subscriptions.
//!
//! ```text
//! words = word "=" name *("," word "=" name)
//! word  = ["\"] ("all" / "archive" / "drafts" / "flagged" / "junk" / "sent" / "trash" / "subscribed")
//! ```
//!
//! A name is one of the table, with "/" between its levels. It may hold a comma, unless that looks like the
//! start of the next one.

use formats::name::DELIMITER;
use formats::rows::Flags;

use crate::found::{Found, Said};

const OPTION: &str = "--special-use";

/// What such words add to names, or what is wrong with them.
pub fn read_uses(words: &[u8]) -> Result<Vec<Found>, String> {
    let mut uses: Vec<(Flags, Vec<u8>)> = Vec::new();
    for piece in words.split(|&byte| byte == b',') {
        match (use_of(piece), uses.last_mut()) {
            (Some((flag, name)), _) => uses.push((flag, name.to_vec())),
            (None, Some((_, name))) => *name = [name.as_slice(), b",", piece].concat(),
            (None, None) => return Err(shape()),
        }
    }
    if uses.iter().any(|(_, name)| name.is_empty()) {
        return Err(shape());
    }
    let found = |(flag, name)| Found {
        origin: OPTION.to_string(),
        name,
        delimiter: Some(DELIMITER),
        said: Said::Added(flag),
    };
    Ok(uses.into_iter().map(found).collect())
}

fn named() -> impl Iterator<Item = (&'static str, Flags)> {
    let is_use = |flag: Flags| Flags::USES.has(flag) || flag == Flags::SUBSCRIBED;
    Flags::NAMED.into_iter().filter(move |(_, flag)| is_use(*flag))
}

fn shape() -> String {
    let words: Vec<&str> = named().map(|(word, _)| word).collect();
    format!("{OPTION} takes WORD=NAME, and more after commas; WORD is {}", words.join(", "))
}

/// The flag and the name of a piece that has both.
fn use_of(piece: &[u8]) -> Option<(Flags, &[u8])> {
    let at = piece.iter().position(|&byte| byte == b'=')?;
    let word = piece[..at].strip_prefix(b"\\").unwrap_or(&piece[..at]);
    let is_word = |(name, _): &(&str, Flags)| word.eq_ignore_ascii_case(name.as_bytes());
    named().find(is_word).map(|(_, flag)| (flag, &piece[at + 1..]))
}
