//! CSV (RFC 4180), written in ASCII alone, with LF after each record.
//!
//! In a field of bytes, 20 to 7E stand as they are, a backslash is written as two, and every other byte
//! as `\x` and two digits; so no byte is lost, and none can hide. Text is written by its UTF-8 bytes in
//! the same way. A field that would start with `=`, `+`, `-` or `@` starts with that byte as `\x` and two
//! digits, so that no spreadsheet takes it for a formula.

use crate::name::is_printable;

/// What a spreadsheet takes for the start of a formula.
const FORMULA_STARTS: &[u8] = b"=+-@";

/// A record of fields of bytes, with LF.
pub fn record<F: AsRef<[u8]>>(fields: impl IntoIterator<Item = F>) -> String {
    let fields: Vec<String> = fields.into_iter().map(|bytes| field(bytes.as_ref())).collect();
    fields.join(",") + "\n"
}

fn field(bytes: &[u8]) -> String {
    let mut text = String::new();
    for (at, &byte) in bytes.iter().enumerate() {
        match byte {
            b'\\' => text.push_str("\\\\"),
            _ if is_printable(byte) && !(at == 0 && FORMULA_STARTS.contains(&byte)) => {
                text.push(char::from(byte));
            }
            _ => text.push_str(&format!("\\x{byte:02X}")),
        }
    }
    if text.contains(['"', ',']) {
        format!("\"{}\"", text.replace('"', "\"\""))
    } else {
        text
    }
}
