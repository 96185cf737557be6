//! Mailbox names: their bytes, levels, ancestors, and the spelling of INBOX.

/// Document 01: "name length 1 to 200".
pub const MAX_NAME: usize = 200;
/// Document 01: "names have 1 to 16 non-empty levels".
pub const MAX_LEVELS: usize = 16;
/// What parts the levels of a name.
pub const DELIMITER: u8 = b'/';
/// The one name that is compared without regard to case.
pub const INBOX: &[u8] = b"INBOX";

/// Whether a name has the table's shape: length, bytes, levels and the INBOX rule.
pub fn is_lawful(name: &[u8]) -> bool {
    broken_rule(name).is_none()
}

/// The first rule for names that a name breaks, in document 01's order.
pub fn broken_rule(name: &[u8]) -> Option<&'static str> {
    if !(1..=MAX_NAME).contains(&name.len()) {
        return Some("a name has 1 to 200 bytes");
    }
    let (mut count, mut has_empty) = (0, false);
    for level in levels(name) {
        if !level.iter().all(|&byte| is_name_byte(byte)) {
            return Some("name bytes are 20 to 7E (hex), without % and *");
        }
        count += 1;
        has_empty |= level.is_empty();
    }
    if has_empty {
        Some("no level of a name is empty")
    } else if count > MAX_LEVELS {
        Some("names have 1 to 16 levels")
    } else if !spells_inbox_lawfully(name) {
        Some("a first level that equals INBOX is spelled INBOX")
    } else {
        None
    }
}

/// Document 02, W6: "A name whose first level is INBOX in any case of letters is first spelled
/// INBOX."
pub fn spelled(name: &[u8]) -> Vec<u8> {
    match levels(name).next() {
        Some(first) if first.eq_ignore_ascii_case(INBOX) => [INBOX, &name[first.len()..]].concat(),
        _ => name.to_vec(),
    }
}

/// "A name's proper ancestors are what stands before each of its "/"", shortest first.
pub fn ancestors(name: &[u8]) -> impl Iterator<Item = &[u8]> {
    (0..name.len()).filter(|&at| name[at] == DELIMITER).map(|at| &name[..at])
}

/// Whether a name lies strictly below another: it goes on with "/" where the other ends.
pub fn is_below(name: &[u8], above: &[u8]) -> bool {
    name.get(above.len()) == Some(&DELIMITER) && name.starts_with(above)
}

/// What every descendant of `name` starts with. Foo-x does not start with Foo's.
pub fn descendant_prefix(name: &[u8]) -> Vec<u8> {
    [name, &[DELIMITER]].concat()
}

/// Bytes 20 to 7E, the bytes of names and of namespace prefixes.
pub fn is_printable(byte: u8) -> bool {
    (0x20..=0x7E).contains(&byte)
}

fn levels(name: &[u8]) -> impl Iterator<Item = &[u8]> {
    name.split(|&byte| byte == DELIMITER)
}

fn is_name_byte(byte: u8) -> bool {
    is_printable(byte) && byte != b'%' && byte != b'*'
}

/// "a first level that equals INBOX without regard to case is spelled INBOX"
fn spells_inbox_lawfully(name: &[u8]) -> bool {
    levels(name).next().is_none_or(|first| first == INBOX || !first.eq_ignore_ascii_case(INBOX))
}
