//! Bytes as text that can be taken for nothing else: no byte moves the cursor, ends a line or hides
//! what stands beside it.
//!
//! A byte that is not shown as it stands is shown as `\x` and two digits. In a text that has such a
//! byte, or that could be read so, each backslash is shown as two. So what looks like `\x1B` is
//! always an escape, and `\\x1B` never is.

use std::path::Path;

use crate::name::is_printable;
use crate::quoted::push_quoted;

/// Bytes 20 to 7E as they stand.
pub fn line_text(bytes: &[u8]) -> String {
    escaped(bytes, |character| u8::try_from(character).is_ok_and(is_printable))
}

/// Characters as they stand, but for controls and those that are not seen or turn the others round.
pub fn comment_text(bytes: &[u8]) -> String {
    escaped(bytes, is_seen)
}

/// A path, as characters.
pub fn path_text(path: &Path) -> String {
    comment_text(path.as_os_str().as_encoded_bytes())
}

/// A name bare where it can stand so, or in quotes.
pub fn name_text(name: &[u8]) -> String {
    let is_bare = |byte: &u8| byte.is_ascii_graphic() && !b"\"\\".contains(byte);
    if !name.is_empty() && name.iter().all(is_bare) {
        line_text(name)
    } else {
        quoted(name)
    }
}

/// In quotes, with a backslash before `"` and `\`, so that what is shown as `\x` and two digits is
/// a byte.
pub fn quoted(bytes: &[u8]) -> String {
    let mut text = Vec::new();
    push_quoted(&mut text, bytes);
    let shown = |&byte: &u8| match is_printable(byte) {
        true => char::from(byte).to_string(),
        false => escape(byte),
    };
    text.iter().map(shown).collect()
}

/// Text in quotes, with a backslash before `"` and `\`, and characters that are not seen escaped.
pub fn quoted_text(text: &str) -> String {
    let shown = |character: char| match character {
        '"' | '\\' => format!("\\{character}"),
        _ if is_seen(character) => character.to_string(),
        _ => escaped_character(character),
    };
    format!("\"{}\"", text.chars().map(shown).collect::<String>())
}

/// The start of a long text and its length.
pub fn shortened(text: &str, most: usize) -> String {
    match text.char_indices().nth(most) {
        Some((at, _)) => format!("{}… ({} characters)", &text[..at], text.chars().count()),
        None => text.to_string(),
    }
}

fn escaped(bytes: &[u8], is_shown: impl Fn(char) -> bool) -> String {
    let is_plain = bytes
        .utf8_chunks()
        .all(|chunk| chunk.invalid().is_empty() && chunk.valid().chars().all(&is_shown));
    let backslash = if is_plain && !has_escape(bytes) { "\\" } else { "\\\\" };
    let mut text = String::new();
    for chunk in bytes.utf8_chunks() {
        for character in chunk.valid().chars() {
            match character {
                '\\' => text.push_str(backslash),
                _ if is_shown(character) => text.push(character),
                _ => text.push_str(&escaped_character(character)),
            }
        }
        text.extend(chunk.invalid().iter().map(|&byte| escape(byte)));
    }
    text
}

/// Whether bytes could be read as an escape.
fn has_escape(bytes: &[u8]) -> bool {
    let is_escape =
        |four: &[u8]| four.starts_with(b"\\x") && four[2..].iter().all(u8::is_ascii_hexdigit);
    bytes.windows(4).any(is_escape)
}

fn escaped_character(character: char) -> String {
    character.encode_utf8(&mut [0; 4]).bytes().map(escape).collect()
}

fn escape(byte: u8) -> String {
    format!("\\x{byte:02X}")
}

/// No control, no end of a line, nothing without width, nothing that changes the direction.
fn is_seen(character: char) -> bool {
    let is_format = matches!(character,
        '\u{AD}' | '\u{61C}' | '\u{180E}' | '\u{200B}'..='\u{200F}' | '\u{2028}'..='\u{202E}'
        | '\u{2060}'..='\u{206F}' | '\u{FEFF}' | '\u{FFF9}'..='\u{FFFB}' | '\u{E0000}'..='\u{E007F}');
    !character.is_control() && !is_format
}
