//! A reader of JSON (RFC 8259), for tests: strict, and of numbers without a sign or a fraction.

use std::collections::BTreeMap;
use std::ops::Index;

#[derive(Clone, Debug, PartialEq)]
pub enum Value {
    Null,
    Bool(bool),
    Number(u64),
    Text(String),
    List(Vec<Value>),
    Object(BTreeMap<String, Value>),
}

impl Value {
    /// A whole document.
    pub fn of(text: &str) -> Value {
        let mut rest = text.trim();
        let value = read(&mut rest);
        assert_eq!(rest.trim(), "", "after the document");
        value
    }

    pub fn list(&self) -> &[Value] {
        match self {
            Value::List(values) => values,
            other => panic!("no list: {other:?}"),
        }
    }

    pub fn text(&self) -> &str {
        match self {
            Value::Text(text) => text,
            other => panic!("no text: {other:?}"),
        }
    }

    /// One byte for each character.
    pub fn bytes(&self) -> Vec<u8> {
        self.text().chars().map(|one| u8::try_from(one).expect("a byte")).collect()
    }

    pub fn number(&self) -> u64 {
        match self {
            Value::Number(number) => *number,
            other => panic!("no number: {other:?}"),
        }
    }
}

impl Index<&str> for Value {
    type Output = Value;

    fn index(&self, name: &str) -> &Value {
        match self {
            Value::Object(members) => {
                members.get(name).unwrap_or_else(|| panic!("no {name} in {self:?}"))
            }
            other => panic!("no object: {other:?}"),
        }
    }
}

fn read(rest: &mut &str) -> Value {
    *rest = rest.trim_start();
    for (word, value) in
        [("null", Value::Null), ("true", Value::Bool(true)), ("false", Value::Bool(false))]
    {
        if take(rest, word) {
            return value;
        }
    }
    match rest.as_bytes().first() {
        Some(b'"') => Value::Text(string(rest)),
        Some(b'[') => Value::List(members(rest, '[', ']', read)),
        Some(b'{') => {
            let member = |rest: &mut &str| {
                *rest = rest.trim_start();
                let name = string(rest);
                *rest = rest.trim_start();
                assert!(take(rest, ":"), "a colon at {rest}");
                (name, read(rest))
            };
            let members = members(rest, '{', '}', member);
            let count = members.len();
            let object: BTreeMap<String, Value> = members.into_iter().collect();
            assert_eq!(object.len(), count, "a member twice");
            Value::Object(object)
        }
        _ => {
            let length = rest.bytes().take_while(u8::is_ascii_digit).count();
            let number = rest[..length].parse().unwrap_or_else(|_| panic!("no value at {rest}"));
            *rest = &rest[length..];
            Value::Number(number)
        }
    }
}

fn take(rest: &mut &str, word: &str) -> bool {
    let after = rest.strip_prefix(word);
    *rest = after.unwrap_or(rest);
    after.is_some()
}

fn members<T>(rest: &mut &str, open: char, close: char, one: impl Fn(&mut &str) -> T) -> Vec<T> {
    assert!(take(rest, &open.to_string()));
    let mut values = Vec::new();
    *rest = rest.trim_start();
    while !take(rest, &close.to_string()) {
        assert!(values.is_empty() || take(rest, ","), "a comma at {rest}");
        values.push(one(rest));
        *rest = rest.trim_start();
    }
    values
}

fn string(rest: &mut &str) -> String {
    assert!(take(rest, "\""), "a quote at {rest}");
    let mut units = Vec::new();
    loop {
        let one = rest.chars().next().expect("an end of a string");
        *rest = &rest[one.len_utf8()..];
        match one {
            '"' => return String::from_utf16(&units).expect("UTF-16"),
            '\\' if take(rest, "u") => {
                units.push(u16::from_str_radix(&rest[..4], 16).expect("digits"));
                *rest = &rest[4..];
            }
            '\\' => {
                let one = rest.as_bytes()[0];
                assert!(b"\"\\".contains(&one), "an escape that is not written: {rest}");
                units.push(one.into());
                *rest = &rest[1..];
            }
            // Nothing else is written bare.
            ' '..='~' => units.push(one as u16),
            _ => panic!("{one:?} in a string"),
        }
    }
}
