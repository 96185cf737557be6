//! Bytes as Python shows them, in the debug output of its imaplib.

/// The bytes of a whole text `b'..'` or `b".."`, if it is one.
pub fn bytes_literal(text: &[u8]) -> Option<Vec<u8>> {
    let [b'b', quote @ (b'\'' | b'"'), inner @ .., end] = text else {
        return None;
    };
    if end != quote {
        return None;
    }
    let mut bytes = Vec::new();
    let mut rest = inner;
    while let Some((&first, after)) = rest.split_first() {
        let (byte, after) = match first {
            b'\\' => escaped(after)?,
            _ if first == *quote => return None,
            _ => (first, after),
        };
        bytes.push(byte);
        rest = after;
    }
    Some(bytes)
}

/// The byte that stands after a backslash, and what comes after it.
fn escaped(text: &[u8]) -> Option<(u8, &[u8])> {
    let (&first, after) = text.split_first()?;
    let byte = match first {
        b'\\' | b'\'' | b'"' => first,
        b'n' => b'\n',
        b'r' => b'\r',
        b't' => b'\t',
        b'x' => {
            let (digits, after) = after.split_at_checked(2)?;
            let byte = u8::from_str_radix(str::from_utf8(digits).ok()?, 16).ok()?;
            return Some((byte, after));
        }
        _ => return None,
    };
    Some((byte, after))
}
