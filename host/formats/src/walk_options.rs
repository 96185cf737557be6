//! The option byte of a walk: "1 asks for REMOTE, 2 for SPECIAL-USE, 4 drops SUBSCRIBED" (documents 01 and 02).

pub const OPTION_REMOTE: u8 = 1;
pub const OPTION_SPECIAL_USE: u8 = 2;
pub const OPTION_WITHOUT_SUBSCRIBED: u8 = 4;
/// No walk has a bit above these.
pub const MAX_OPTION: u8 = OPTION_REMOTE | OPTION_SPECIAL_USE | OPTION_WITHOUT_SUBSCRIBED;
