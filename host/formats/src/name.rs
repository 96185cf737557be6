//! Mailbox names: their bytes, levels, ancestors, and the spelling of INBOX.

/// Document 01: "name length 1 to 200".
pub const MAX_NAME: usize = 200;
/// Document 01: "names have 1 to 16 non-empty levels".
pub const MAX_LEVELS: usize = 16;
/// What parts the levels of a name.
pub const DELIMITER: u8 = b'/';
/// The one name that is compared without regard to case.
pub const INBOX: &[u8] = b"INBOX";

/// The first rule for names that a name breaks, in document 01's order; none for a lawful name.
pub fn broken_rule(name: &[u8]) -> Option<&'static str> {
    let is_name_byte = |&byte: &u8| is_printable(byte) && !b"%*".contains(&byte);
    let rules = [
        ((1..=MAX_NAME).contains(&name.len()), "a name has 1 to 200 bytes"),
        (name.iter().all(is_name_byte), "name bytes are 20 to 7E (hex), without % and *"),
        (levels(name).all(|level| !level.is_empty()), "no level of a name is empty"),
        (levels(name).count() <= MAX_LEVELS, "names have 1 to 16 levels"),
        (spelled(name) == name, "a first level that equals INBOX is spelled INBOX"),
    ];
    rules.into_iter().find(|(is_kept, _)| !is_kept).map(|(_, rule)| rule)
}

/// Whether a name breaks no rule.
pub fn is_lawful(name: &[u8]) -> bool {
    broken_rule(name).is_none()
}

/// The name with a first level INBOX, in any case of letters, spelled INBOX.
pub fn spelled(name: &[u8]) -> Vec<u8> {
    let mut spelled = name.to_vec();
    let first = name.iter().position(|&byte| byte == DELIMITER).unwrap_or(name.len());
    if name[..first].eq_ignore_ascii_case(INBOX) {
        spelled[..first].copy_from_slice(INBOX);
    }
    spelled
}

/// The levels of a name, in their order.
pub fn levels(name: &[u8]) -> impl Iterator<Item = &[u8]> {
    name.split(|&byte| byte == DELIMITER)
}

/// "A name's proper ancestors are what stands before each of its "/"", shortest first.
pub fn ancestors(name: &[u8]) -> impl Iterator<Item = &[u8]> {
    let ends = name.iter().enumerate().filter(|(_, &byte)| byte == DELIMITER);
    ends.map(|(end, _)| &name[..end])
}

/// What every descendant of `name` starts with. Foo-x does not start with Foo's.
pub fn descendant_prefix(name: &[u8]) -> Vec<u8> {
    [name, &[DELIMITER]].concat()
}

/// Bytes 20 to 7E, the bytes of names and of namespace prefixes.
pub fn is_printable(byte: u8) -> bool {
    (b' '..=b'~').contains(&byte)
}
