//! What is printed cannot be taken for anything else.

use formats::text::{comment_text, line_text, name_text};
use formats::utf7::decoded;
use session::Form;

use crate::common::{printed, run_on, whole_text};

/// Neither comments nor names nor commands move the cursor or end a line.
#[test]
fn nothing_forges_an_answer() {
    let hostile: [&[u8]; 6] = [
        b"# x\rAnswer     a OK done",
        b"# \x1B[2K\x1B[1AAnswer     a OK done\x07",
        "# \u{202E}enod KO a\u{2028}Answer \u{85} \u{200B}".as_bytes(),
        b"# \xFF\xC3( \x80",
        b"mailbox \"x\x1B[1A\rAnswer\" exists",
        b"command a LIST \"\" \"\x1B[1A\rAnswer\x7F\"",
    ];
    for line in hostile {
        let text = whole_text([line, b"\n"].concat(), Form::Text);
        let odd = |character: char| character != '\n' && !(' '..='~').contains(&character);
        assert!(!text.contains(odd), "{text}");
        assert!(!text.lines().any(|line| line.starts_with("Answer")), "{text}");
    }
    let text = printed("# Entw\u{fc}rfe \u{4f8b}\n", Form::Text);
    assert_eq!(text, "# Entw\u{fc}rfe \u{4f8b}\n");
}

/// An escape is told apart from a backslash, an x and two digits.
#[test]
fn escapes_and_backslashes() {
    let lines: [(&[u8], &str); 9] = [
        (b"\\Noselect \"a\\\\b\"", "\\Noselect \"a\\\\b\""),
        (b"\x1B", "\\x1B"),
        (b"\\x1B", "\\\\x1B"),
        (b"\\\x1B", "\\\\\\x1B"),
        (b"\\\\x1B", "\\\\\\\\x1B"),
        (b"\\x1g \\X1B", "\\x1g \\X1B"),
        (b"\\q\x80", "\\\\q\\x80"),
        ("\u{e9}".as_bytes(), "\\xC3\\xA9"),
        (b"", ""),
    ];
    for (bytes, shown) in lines {
        assert_eq!(line_text(bytes), shown, "{bytes:?}");
    }
    let names: [(&[u8], &str); 7] = [
        (b"a/b", "a/b"),
        (b"", "\"\""),
        (b"a b", "\"a b\""),
        (b"a\\b", "\"a\\\\b\""),
        (b"a\\x80", "\"a\\\\x80\""),
        (b"a\x80", "\"a\\x80\""),
        (b"q\"", "\"q\\\"\""),
    ];
    for (name, shown) in names {
        assert_eq!(name_text(name), shown, "{name:?}");
    }
    assert_eq!(comment_text(b"# C:\\x64 \x9F"), "# C:\\\\x64 \\x9F");
    assert_eq!(comment_text("# \u{e9}\\".as_bytes()), "# \u{e9}\\");
}

/// No two different lines of bytes are shown alike.
#[test]
fn shown_alike_is_alike() {
    let pieces: [&[u8]; 9] = [b"\\", b"x", b"8", b"0", b"\x80", b"\\x80", b"\\\\", b"\\x", b"\n"];
    let mut shown = std::collections::BTreeMap::new();
    for number in 0..pieces.len().pow(4) {
        let digit = |place: u32| pieces[number / pieces.len().pow(place) % pieces.len()];
        let bytes = [digit(0), digit(1), digit(2), digit(3)].concat();
        for text in [line_text(&bytes), format!("name {}", name_text(&bytes))] {
            let before = shown.insert(text.clone(), bytes.clone());
            assert!(before.is_none_or(|before| before == bytes), "{text}");
        }
    }
}

/// RFC 3501, 5.1.3: what a name says, where that is something else than its bytes.
#[test]
fn modified_utf7() {
    let names = [
        ("Entw&APw-rfe", Some("Entw\u{fc}rfe")),
        (
            "~peter/mail/&U,BTFw-/&ZeVnLIqe-",
            Some("~peter/mail/\u{53f0}\u{5317}/\u{65e5}\u{672c}\u{8a9e}"),
        ),
        ("A&-B", Some("A&B")),
        ("&APw-&-", Some("\u{fc}&")),
        ("&2D3eAA-", Some("\u{1f600}")),
        ("&AAo-", Some("\n")),
        ("Foo/Bar", None),
        ("", None),
        // No shift back, other letters, bits left over, half a character, a lone surrogate.
        ("A&B", None),
        ("&APw", None),
        ("&AP/-", None),
        ("&APx-", None),
        ("&AP-", None),
        ("&2D0-", None),
        // What could stand for itself, and a null shift.
        ("&AGE-", None),
        ("&APw-&APw-", None),
    ];
    for (name, text) in names {
        assert_eq!(decoded(name.as_bytes()).as_deref(), text, "{name}");
    }
}

#[test]
fn names_with_what_they_say_beside() {
    let source = concat!(
        "mailbox &AAoAIg-x exists subscribed\n",
        "mailbox Entw&APw-rfe exists subscribed\n",
        "namespace personal \"&AOk-/\" \"/\"\n",
        "command a LIST \"\" *\n",
        "walk\n",
    );
    let bad = run_on(source);
    assert_eq!(bad.status.code(), Some(0));
    assert_eq!(
        printed(&source[source.find("mailbox E").expect("a row")..], Form::Text),
        concat!(
            "Mailbox    Entw&APw-rfe                 exists subscribed  = \"Entw\u{fc}rfe\"\n",
            "Namespace  personal \"&AOk-/\" \"/\"  = \"\u{e9}/\"\n",
            "\n",
            "Command    a LIST \"\" *\n",
            "Answer     * LIST () \"/\" \"Entw&APw-rfe\"  = \"Entw\u{fc}rfe\"\n",
            "           a OK done\n",
            "\n",
            "Walk       option byte 0\n",
            "Answer     1 command sent, 1 mailbox found\n",
            "           Entw&APw-rfe  = \"Entw\u{fc}rfe\"\n",
        )
    );
    let text = whole_text("mailbox &AAo-x exists\n", Form::Text);
    assert!(
        text.starts_with("Mailbox    &AAo-x                       exists  = \"\\x0Ax\"\n"),
        "{text}"
    );
}
