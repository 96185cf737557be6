//! What walks ask for.

use formats::name;
use formats::quoted::push_quoted;
use formats::rows::Flags;

use crate::random::Random;

/// A walk with a lawful option byte.
pub struct Walk {
    pub option: u8,
    /// The selection of its commands.
    pub selection: &'static str,
    /// The flags of a row that meets its criteria.
    pub flags: Flags,
}

impl Walk {
    /// The command that asks for the level below a name.
    pub fn command_below(&self, name: &[u8]) -> Vec<u8> {
        let mut line = format!("w LIST ({}) ", self.selection).into_bytes();
        push_quoted(&mut line, &name::descendant_prefix(name));
        line.extend_from_slice(b" \"%\"\r\n");
        line
    }
}

const SUBSCRIBED: Flags = Flags::EXISTS.with(Flags::SUBSCRIBED);
const USED: Flags = Flags::EXISTS.with(Flags::SENT);
const SUBSCRIBED_AND_USED: Flags = SUBSCRIBED.with(Flags::SENT);

/// A walk for each lawful option byte.
pub const WALKS: [Walk; 6] = [
    Walk { option: 0, selection: "SUBSCRIBED RECURSIVEMATCH", flags: SUBSCRIBED },
    Walk {
        option: 1,
        selection: "SUBSCRIBED RECURSIVEMATCH REMOTE",
        flags: SUBSCRIBED.with(Flags::REMOTE),
    },
    Walk {
        option: 2,
        selection: "SUBSCRIBED RECURSIVEMATCH SPECIAL-USE",
        flags: SUBSCRIBED_AND_USED,
    },
    Walk {
        option: 3,
        selection: "SUBSCRIBED RECURSIVEMATCH SPECIAL-USE REMOTE",
        flags: SUBSCRIBED_AND_USED.with(Flags::REMOTE),
    },
    Walk { option: 6, selection: "RECURSIVEMATCH SPECIAL-USE", flags: USED },
    Walk {
        option: 7,
        selection: "RECURSIVEMATCH SPECIAL-USE REMOTE",
        flags: USED.with(Flags::REMOTE),
    },
];

/// Option bytes that are refused: SUBSCRIBED dropped without SPECIAL-USE, and above 7.
pub const REFUSED_OPTIONS: [u8; 4] = [4, 5, 8, 255];

pub fn some_walk(random: &mut Random) -> &'static Walk {
    &WALKS[random.below(WALKS.len())]
}
