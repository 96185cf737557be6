//! Text files of names.

use import::names::{read_names, EXISTS, SUBSCRIBED};
use import::{Room, Told};

use crate::common::{came, Came};

fn of_names(text: &str, delimiter: u8) -> Came {
    came(&read_names(text.as_bytes(), delimiter, EXISTS), Told::default(), Room::Program)
}

#[test]
fn names() {
    let files: [(&str, u8, &[&str]); 6] = [
        ("", b'/', &[]),
        ("\n\n", b'/', &[]),
        ("b\na\n", b'/', &["mailbox a exists", "mailbox b exists"]),
        ("\u{feff}a\r\nb/c", b'/', &["mailbox a exists", "mailbox b/c exists"]),
        (" a \na\"b\n", b'/', &["mailbox \" a \" exists", "mailbox \"a\\\"b\" exists"]),
        ("a.b\na.b\n", b'.', &["mailbox a/b exists"]),
    ];
    for (text, delimiter, lines) in files {
        let Came { lines: given, told } = of_names(text, delimiter);
        assert_eq!(given, lines, "{text:?}");
        assert!(told.is_all_taken() && told.all_notes().is_empty(), "{text:?}");
    }
}

/// Words of a session file are names like others, and no name adds an item.
#[test]
fn names_like_items() {
    let names =
        ["#x", "+", "exists", "mailbox", "readers", "readers none", "walk", "x # y", "\\x41"];
    let Came { lines, told } = of_names(&names.join("\n"), b'/');
    assert!(told.is_all_taken());
    assert_eq!(lines.len(), names.len());
}

#[test]
fn subscribed_names() {
    let mut found = read_names(b"a\nb", b'/', EXISTS);
    found.extend(read_names(b"b\nc\nd%", b'/', SUBSCRIBED));
    let Came { lines, told } = came(&found, Told::default(), Room::Program);
    assert_eq!(lines, ["mailbox a exists", "mailbox b exists subscribed", "mailbox c subscribed"]);
    let left_out =
        "line of the subscribed names 3: d%: name bytes are 20 to 7E (hex), without % and *";
    assert_eq!(told.all_left_out(), [left_out]);
}
