//! The file in which Dovecot keeps the subscribed names of a tree.
//!
//! It has one name a line, with the tree's own delimiter between the levels, or, where its first line is
//! `V`, a tab and `2`, with tabs.

use formats::rows::Flags;

use crate::found::{Found, Said};

/// The first line of the form whose levels are parted by tabs. In it byte 01 and one more stand for a byte
/// that no lawful name has, so no such name is lawful and they may stay as they are.
const TABBED: &[u8] = b"V\t2";
const TAB: u8 = b'\t';

/// The subscribed names of such a file, which has this name, in a tree with this delimiter.
pub fn read_subscriptions(bytes: &[u8], file: &str, delimiter: u8) -> Vec<Found> {
    let lines = || (1..).zip(bytes.split(|&byte| byte == b'\n'));
    let is_tabbed = lines().next().is_some_and(|(_, line)| line == TABBED);
    let found = |(number, line): (usize, &[u8])| {
        let line = line.strip_suffix(b"\r").unwrap_or(line);
        let (name, delimiter) =
            if is_tabbed { tabbed_name(line, delimiter) } else { (line.to_vec(), delimiter) };
        let origin = format!("{file}, line {number}");
        let said = Said::Subscribed(Flags::IMPLIED);
        Found { origin, name, delimiter: Some(delimiter), said }
    };
    let is_name = |found: &Found| !found.name.is_empty();
    lines().skip(usize::from(is_tabbed)).map(found).filter(is_name).collect()
}

/// A name with tabs between its levels, as a folder has it; where a level holds the delimiter, no folder
/// does.
fn tabbed_name(line: &[u8], delimiter: u8) -> (Vec<u8>, u8) {
    if line.contains(&delimiter) {
        return (line.to_vec(), TAB);
    }
    let in_levels = |&byte: &u8| if byte == TAB { delimiter } else { byte };
    (line.iter().map(in_levels).collect(), delimiter)
}
