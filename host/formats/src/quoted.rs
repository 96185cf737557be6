//! Quoted strings, as commands, answers and session files write them: `"` and `\` take a backslash.

/// Adds bytes in quotes.
pub fn push_quoted(text: &mut Vec<u8>, bytes: &[u8]) {
    text.push(b'"');
    for &byte in bytes {
        text.extend(takes_backslash(byte).then_some(b'\\'));
        text.push(byte);
    }
    text.push(b'"');
}

/// The bytes of the quoted string that `text` starts with, and what comes after it; none without both quotes, or with a
/// backslash before another byte than `"` and `\`.
pub fn read_quoted(text: &[u8]) -> Option<(Vec<u8>, &[u8])> {
    let mut bytes = Vec::new();
    let mut rest = text.strip_prefix(b"\"")?.iter();
    loop {
        match *rest.next()? {
            b'"' => return Some((bytes, rest.as_slice())),
            b'\\' => bytes.push(*rest.next().filter(|&&byte| takes_backslash(byte))?),
            byte => bytes.push(byte),
        }
    }
}

fn takes_backslash(byte: u8) -> bool {
    matches!(byte, b'"' | b'\\')
}
