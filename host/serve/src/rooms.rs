//! The numbers of `include/luspemaro.h` that a server needs.

use formats::sizes::{PROGRAM_ANSWER, PROGRAM_AREA, ROOM_ANSWER};
use luspemaro::COMMAND_ROOM;

/// `LUSPEMARO_MAX_ROWS`: so many records are lent.
pub const MAX_ROWS: usize = 512;
/// `LUSPEMARO_MAX_AREA`
const MAX_AREA: usize = 32_768;
/// `LUSPEMARO_MAX_TABLE`
pub const MAX_TABLE: usize = 32_768;
/// `LUSPEMARO_ROOM_LIST_LINE`: no line of LIST or LSUB is longer.
pub const LIST_LINE: usize = 612;
/// `LUSPEMARO_STACK_ANSWER`, the most that any entry needs.
const STACK_ANSWER: usize = 323_584;
/// What the functions of this crate need above the entry, with a margin.
const STACK_OWN: usize = 262_144;

/// The stack of a thread that serves a connection.
pub const THREAD_STACK: usize = STACK_ANSWER + STACK_OWN;

/// How much memory a table and its answers are lent.
#[derive(Clone, Copy, Debug, PartialEq, Eq)]
pub struct Rooms {
    /// Bytes of the area of names.
    pub area: usize,
    /// Bytes of the longest answer.
    pub answer: usize,
    /// Whether names are moved together where SUBSCRIBE finds no room.
    pub compacts: bool,
}

impl Rooms {
    /// The most that the library takes: no answer is refused for its length.
    pub const WIDE: Rooms = Rooms { area: MAX_AREA, answer: ROOM_ANSWER, compacts: true };
    /// Those of the program of frames, so that it gives the same answers to the same commands.
    pub const PROGRAM: Rooms =
        Rooms { area: PROGRAM_AREA, answer: PROGRAM_ANSWER, compacts: false };
}

/// The memory that a command is fed into.
pub fn command_memory() -> Box<[u8; COMMAND_ROOM]> {
    Box::new([0; COMMAND_ROOM])
}

#[cfg(test)]
mod tests {
    use crate::rooms::*;

    /// The number that the header defines.
    fn defined(name: &str) -> usize {
        let header = include_str!("../../../include/luspemaro.h");
        let is_it = |line: &&str| line.split_whitespace().nth(1) == Some(name);
        let line = header.lines().filter(|line| line.starts_with("#define")).find(is_it);
        let number = line.and_then(|line| line.split_whitespace().nth(2));
        number.and_then(|number| number.parse().ok()).unwrap_or_else(|| panic!("no {name}"))
    }

    #[test]
    fn numbers_are_the_headers() {
        assert_eq!(MAX_ROWS, defined("LUSPEMARO_MAX_ROWS"));
        assert_eq!(MAX_AREA, defined("LUSPEMARO_MAX_AREA"));
        assert_eq!(MAX_TABLE, defined("LUSPEMARO_MAX_TABLE"));
        assert_eq!(ROOM_ANSWER, defined("LUSPEMARO_ROOM_ANSWER"));
        assert_eq!(COMMAND_ROOM, defined("LUSPEMARO_ROOM_COMMAND"));
        assert_eq!(LIST_LINE, defined("LUSPEMARO_ROOM_LIST_LINE"));
        assert_eq!(STACK_ANSWER, defined("LUSPEMARO_STACK_ANSWER"));
        for entry in ["FEED", "PUT_GO_ON", "COMPACT", "SUMMARIZE", "CHECK_RECORDS", "CHECK_TABLE"] {
            assert!(defined(&format!("LUSPEMARO_STACK_{entry}")) <= STACK_ANSWER, "{entry}");
        }
    }
}
