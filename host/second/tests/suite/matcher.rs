//! The matcher: wildcards, levels, INBOX, and patterns made to be slow.

use std::time::{Duration, Instant};

use second::matches;

/// A matcher that tries every way takes years over the hostile rows.
const PATIENCE: Duration = Duration::from_secs(5);

/// Pattern, name, whether it matches.
const ROWS: [(&str, &str, bool); 44] = [
    ("Foo", "Foo", true),
    ("Foo", "foo", false),
    ("Foo", "Foo/Bar", false),
    ("Foo", "Fo", false),
    ("Fo", "Foo", false),
    ("*", "Foo", true),
    ("*", "Foo/Bar", true),
    ("%", "Foo", true),
    ("%", "Foo/Bar", false),
    ("%/%", "Foo/Bar", true),
    ("%/%", "Foo/Bar/Baz", false),
    ("%/%/%", "Foo/Bar/Baz", true),
    ("%*", "Foo/Bar", true),
    ("*%", "Foo/Bar", true),
    ("%%", "Foo", true),
    ("%%", "Foo/Bar", false),
    ("Foo*", "Foo", true),
    ("Foo%", "Foo", true),
    ("Foo%", "Foo-x", true),
    ("Foo%", "Foo/Bar", false),
    ("Foo/%", "Foo", false),
    ("Foo/%", "Foo/Bar", true),
    ("Foo/*", "Foo/Bar/Baz", true),
    ("*r", "Foo/Bar", true),
    ("%r", "Foo/Bar", false),
    ("F%/B%", "Foo/Bar", true),
    ("F*B%", "Foo/Bar", true),
    ("F%B%", "Foo/Bar", false),
    ("*/*", "Foo", false),
    ("*a*b*", "xaybz", true),
    ("*a*b*", "xbyaz", false),
    ("%a/%b", "xa/a/b", false),
    ("*a/%b", "xa/a/b", true),
    ("a%a", "a", false),
    ("a*a", "aa", true),
    ("inbox", "INBOX", true),
    ("iNb%", "INBOX", true),
    ("*x", "INBOX", true),
    ("in", "INBOX", false),
    ("inbox/x", "INBOX/x", false),
    ("inbox/%", "INBOX/x", false),
    ("INBOX/%", "INBOX/x", true),
    ("inbox", "x/INBOX", false),
    ("inboxx", "INBOXX", false),
];

#[test]
fn rows() {
    for (pattern, name, expected) in ROWS {
        let result = matches(pattern.as_bytes(), name.as_bytes());
        assert_eq!(result, expected, "{pattern} over {name}");
    }
}

#[test]
fn hostile_rows() {
    let a30 = "a".repeat(30);
    let a199 = "a".repeat(199);
    let rows = [
        ("%a".repeat(20) + "b", a30.clone(), false),
        ("%a".repeat(20) + "b", a30.clone() + "b", true),
        ("*a".repeat(20) + "b", a30.clone(), false),
        ("*".repeat(40), a30.clone(), true),
        ("*".repeat(40) + "b", a30.clone(), false),
        ("%".repeat(40), a30.clone() + "/", false),
        ("*%".repeat(20) + "b", a30, false),
        ("%a".repeat(127) + "b", a199.clone(), false),
        ("*%a".repeat(84) + "b", a199.clone(), false),
        ("*%a".repeat(84) + "*", a199, true),
    ];
    let start = Instant::now();
    for (pattern, name, expected) in rows {
        let result = matches(pattern.as_bytes(), name.as_bytes());
        assert_eq!(result, expected, "{pattern} over {name}");
    }
    assert!(start.elapsed() < PATIENCE);
}
