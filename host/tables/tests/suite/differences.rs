//! What differs, in walk order, as text and as JSON.

use tables::WalkPlace;

use crate::common::{body, file, run};

const BEFORE: &str = concat!(
    "mailbox Entw&APw-rfe exists\n",
    "mailbox INBOX exists marked\n",
    "mailbox b/x exists\n",
    "mailbox b-x exists\n",
    "mailbox b/x/y exists subscribed\n",
    "mailbox z exists readers 0,3\n",
);
const AFTER: &str = concat!(
    "mailbox INBOX exists\n",
    "mailbox a/z exists\n",
    "mailbox b/x exists\n",
    "mailbox \"b x\" subscribed\n",
    "mailbox z exists readers 3\n",
);

#[test]
fn names_flags_and_readers_in_walk_order() {
    let (a, b) = (file("before.session", BEFORE), file("after.session", AFTER));
    let (status, text, told) = run(&[&a, &b]);
    assert_eq!((status, told.as_str()), (1, ""));
    assert!(text.starts_with(&format!("A          {a}, a session file: 6 rows\n")), "{text}");
    assert_eq!(
        body(&text),
        concat!(
            "Only A     Entw&APw-rfe                 exists  = \"Entw\u{fc}rfe\"\n",
            "Differs    INBOX\n",
            "  in A     exists marked\n",
            "  in B     exists\n",
            "Only B     \"b x\"                        subscribed\n",
            "Only A     b-x                          exists\n",
            "Differs    z\n",
            "  in A     exists readers 0,3\n",
            "  in B     exists readers 3\n",
            "Only B     a/z                          exists\n",
            "Only A     b/x/y                        exists subscribed",
        )
    );
    let summary = "Summary    3 in A alone, 2 in B alone, 2 with other flags or readers, 1 name \
                   alike; 0 left out: the tables are not alike\n";
    assert!(text.ends_with(summary), "{text}");
}

#[test]
fn alike() {
    let (a, b) = (file("one.session", BEFORE), file("same.session", BEFORE));
    let (status, text, _) = run(&[&a, &b]);
    assert_eq!(status, 0, "{text}");
    let summary = "Summary    0 in A alone, 0 in B alone, 0 with other flags or readers, 6 names \
                   alike; 0 left out: the tables are alike\n";
    assert!(text.ends_with(summary), "{text}");
    let (status, text, _) = run(&["--json", &a, &b]);
    assert_eq!(status, 0);
    assert!(text.ends_with("\"names_alike\": 6,\n\"alike\": true}\n"), "{text}");
}

/// Fewer levels first, then by the first level that differs, by bytes, a prefix first.
#[test]
fn walk_order() {
    let ascending =
        ["B", "a", "a b", "a-", "ab", "z", "A/z", "a/b", "a/b c", "a b/a", "a-/a", "a/a/a"];
    let places: Vec<WalkPlace> =
        ascending.iter().map(|name| WalkPlace::of(name.as_bytes())).collect();
    for (at, pair) in places.windows(2).enumerate() {
        assert!(pair[0] < pair[1], "{} {}", ascending[at], ascending[at + 1]);
    }
}

#[test]
fn as_json() {
    let (a, b) = (file("json-a.session", BEFORE), file("json-b.session", AFTER));
    let (status, text, _) = run(&["--json", &a, &b]);
    assert_eq!(status, 1);
    let all = "[0, 1, 2, 3, 4, 5, 6, 7]";
    let lines = [
        "{\"format\": \"luspemaro tables 1\",".to_string(),
        format!("\"a\": {{\"path\": \"{a}\", \"kind\": \"session\", \"rows\": 6, \"left_out\": [], \"fault\": null, \"notes\": []}},"),
        format!("\"b\": {{\"path\": \"{b}\", \"kind\": \"session\", \"rows\": 5, \"left_out\": [], \"fault\": null, \"notes\": []}},"),
        "\"differences\": [".to_string(),
        format!("{{\"name\": \"Entw&APw-rfe\", \"says\": \"Entw\\u00FCrfe\", \"a\": [{{\"flags\": [\"exists\"], \"flag_bits\": 1, \"readers\": {all}}}], \"b\": []}},"),
        format!("{{\"name\": \"INBOX\", \"a\": [{{\"flags\": [\"exists\", \"marked\"], \"flag_bits\": 33, \"readers\": {all}}}], \"b\": [{{\"flags\": [\"exists\"], \"flag_bits\": 1, \"readers\": {all}}}]}},"),
    ];
    assert_eq!(text.lines().take(lines.len()).collect::<Vec<_>>(), lines);
    assert!(text
        .ends_with("],\n\"namespaces_differ\": false,\n\"names_alike\": 1,\n\"alike\": false}\n"));
}

/// Bytes that are no text, and those that are not seen, are in the JSON one by one.
#[test]
fn bytes_of_names_survive() {
    let name = "\u{202e}\u{1b}[31m\\";
    let row = |name: &[u8]| [b"\0\x01\xFF".as_slice(), &[name.len() as u8], name].concat();
    let (a, b) = (file("odd-a.bin", row(name.as_bytes())), file("odd-b.bin", row(b"\xFF")));
    let (status, text, _) = run(&["--json", &a, &b]);
    assert_eq!(status, 1);
    assert!(text.is_ascii() && !text.contains('\x1b'), "{text}");
    let name = "{\"name\": \"\\u00E2\\u0080\\u00AE\\u001B[31m\\\\\"";
    assert!(text.contains(name) && text.contains("{\"name\": \"\\u00FF\""), "{text}");
    let (_, text, _) = run(&[&a, &b]);
    assert!(text.contains("Only A     \"\\xE2\\x80\\xAE\\x1B[31m\\\\\""), "{text}");
    assert!(text.contains("Only B     \"\\xFF\""), "{text}");
}
