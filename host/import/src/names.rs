//! A text file of names, one a line. Each is a mailbox that exists.
//!
//! A name is all bytes of its line: spaces count. Empty lines are no names, and CR before the line end
//! and the mark that some editors write before the first line are no part of one.

use formats::rows::Flags;

use crate::found::{Found, Said};
use crate::marks::BYTE_ORDER_MARK;

/// The names of a file, each with what is said of it.
pub fn read_names(bytes: &[u8], delimiter: u8, said: Said) -> Vec<Found> {
    let kind = match said {
        Said::Exists(_) => "line",
        Said::Subscribed(_) | Said::Level(_) | Said::Added(_) => "line of the subscribed names",
    };
    let bytes = bytes.strip_prefix(BYTE_ORDER_MARK).unwrap_or(bytes);
    let found = |(number, line): (usize, &[u8])| Found {
        origin: format!("{kind} {number}"),
        name: line.strip_suffix(b"\r").unwrap_or(line).to_vec(),
        delimiter: Some(delimiter),
        said,
    };
    let lines = (1..).zip(bytes.split(|&byte| byte == b'\n'));
    lines.map(found).filter(|found| !found.name.is_empty()).collect()
}

/// What is said of each name of a list of mailboxes.
pub const EXISTS: Said = Said::Exists(Flags::EXISTS);
/// What is said of each name of a list of subscriptions.
pub const SUBSCRIBED: Said = Said::Subscribed(Flags::IMPLIED);
