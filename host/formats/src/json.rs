//! JSON (RFC 8259), written in ASCII alone.
//!
//! Bytes that need not be text, as names and commands, are a string in which each character, from
//! U+0000 to U+00FF, is one byte: 20 to 7E stand as they are, and every other byte is written as `\u00`
//! and two digits. So no byte is lost, and none can hide. Text is Unicode, with the same escapes.

use std::fmt;

/// A value.
#[derive(Clone, Debug, PartialEq, Eq)]
pub enum Json {
    Null,
    Bool(bool),
    Number(u64),
    /// Unicode.
    Text(String),
    /// A string of one character a byte.
    Bytes(Vec<u8>),
    List(Vec<Json>),
    Object(Vec<(&'static str, Json)>),
}

impl Json {
    pub fn text(text: impl Into<String>) -> Json {
        Json::Text(text.into())
    }

    pub fn bytes(bytes: &[u8]) -> Json {
        Json::Bytes(bytes.to_vec())
    }

    pub fn number(number: usize) -> Json {
        Json::Number(number as u64)
    }

    pub fn list(values: impl IntoIterator<Item = Json>) -> Json {
        Json::List(values.into_iter().collect())
    }

    /// Texts, in their order.
    pub fn texts<T: Into<String>>(texts: impl IntoIterator<Item = T>) -> Json {
        Json::list(texts.into_iter().map(Json::text))
    }

    /// Null for none.
    pub fn or_null(value: Option<Json>) -> Json {
        value.unwrap_or(Json::Null)
    }
}

/// In one line.
impl fmt::Display for Json {
    fn fmt(&self, formatter: &mut fmt::Formatter) -> fmt::Result {
        match self {
            Json::Null => write!(formatter, "null"),
            Json::Bool(value) => write!(formatter, "{value}"),
            Json::Number(number) => write!(formatter, "{number}"),
            Json::Text(text) => write_string(formatter, text.chars()),
            Json::Bytes(bytes) => {
                write_string(formatter, bytes.iter().map(|&byte| char::from(byte)))
            }
            Json::List(values) => {
                write!(formatter, "[")?;
                for (at, value) in values.iter().enumerate() {
                    write!(formatter, "{}{value}", separator(at))?;
                }
                write!(formatter, "]")
            }
            Json::Object(members) => {
                write!(formatter, "{{")?;
                for (at, (name, value)) in members.iter().enumerate() {
                    write!(formatter, "{}\"{name}\": {value}", separator(at))?;
                }
                write!(formatter, "}}")
            }
        }
    }
}

fn separator(at: usize) -> &'static str {
    if at == 0 {
        ""
    } else {
        ", "
    }
}

fn write_string(
    formatter: &mut fmt::Formatter,
    characters: impl Iterator<Item = char>,
) -> fmt::Result {
    write!(formatter, "\"")?;
    for character in characters {
        match character {
            '"' | '\\' => write!(formatter, "\\{character}")?,
            ' '..='~' => write!(formatter, "{character}")?,
            _ => {
                for unit in character.encode_utf16(&mut [0; 2]) {
                    write!(formatter, "\\u{unit:04X}")?;
                }
            }
        }
    }
    write!(formatter, "\"")
}
