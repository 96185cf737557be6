//! Quoted strings, as commands and answers write them.

/// "In quotes, `"` and `\` take a backslash."
pub fn push_quoted(text: &mut Vec<u8>, bytes: &[u8]) {
    text.push(b'"');
    for &byte in bytes {
        if takes_backslash(byte) {
            text.push(b'\\');
        }
        text.push(byte);
    }
    text.push(b'"');
}

/// The bytes of the quoted string that `text` starts with, and what stands behind it. There is
/// none without both quotes, or with a backslash before another byte than `"` and `\`.
pub fn read_quoted(text: &[u8]) -> Option<(Vec<u8>, &[u8])> {
    let mut rest = text.strip_prefix(b"\"")?;
    let mut bytes = Vec::new();
    loop {
        let (byte, behind) = match rest {
            [b'"', behind @ ..] => return Some((bytes, behind)),
            [b'\\', byte, behind @ ..] if takes_backslash(*byte) => (*byte, behind),
            [b'\\', ..] | [] => return None,
            [byte, behind @ ..] => (*byte, behind),
        };
        bytes.push(byte);
        rest = behind;
    }
}

fn takes_backslash(byte: u8) -> bool {
    byte == b'"' || byte == b'\\'
}
