//! LSUB (document 02, W5), beside RFC 3501's examples: its grammar, what it lists, its lines.

use second::{read_line, Refusal};

use crate::common::{check, check_dialogue, check_rooms, Rows};

/// Names with every flag, subscribed or not: Foo and Foo/x are implied, Moo and R have a row, and
/// below each of these stands a subscribed name.
const TREE: &Rows = &[
    ("Foo/Bar", "exists"),
    ("Foo/Baz", "exists subscribed"),
    ("Foo/x/y", "exists subscribed remote"),
    ("INBOX", "exists subscribed marked"),
    ("INBOX/z", "subscribed"),
    ("Moo", "exists noselect"),
    ("Moo/\"", "subscribed"),
    ("Q", "exists subscribed noselect all"),
    ("R", "exists"),
    ("R/r", "exists subscribed remote"),
    ("S", "exists remote"),
];
const NO_LINES: Result<&[&str], u8> = Ok(&["a OK done"]);
const FOO_BAZ: Result<&[&str], u8> = Ok(&[r#"* LSUB () "/" "Foo/Baz""#, "a OK done"]);
const ALL: Result<&[&str], u8> = Ok(&[
    r#"* LSUB () "/" "Foo/Baz""#,
    r#"* LSUB () "/" "Foo/x/y""#,
    r#"* LSUB () "/" "INBOX""#,
    r#"* LSUB () "/" "INBOX/z""#,
    r#"* LSUB () "/" "Moo/\"""#,
    r#"* LSUB () "/" "Q""#,
    r#"* LSUB () "/" "R/r""#,
    "a OK done",
]);

/// "Check 5 now knows three words."
#[test]
fn words() {
    check(
        TREE,
        &[
            ("a LSUB \"\" Foo/Baz", FOO_BAZ),
            ("a lsub \"\" Foo/Baz", FOO_BAZ),
            ("a LsUb \"\" Foo/Baz", FOO_BAZ),
            ("a LSU \"\" %", Err(5)),
            ("a LSUBS \"\" %", Err(5)),
            ("a LSUB+ \"\" %", Err(5)),
            ("a  LSUB \"\" %", Err(5)),
            ("a+ LSUB \"\" %", Err(4)),
        ],
    );
}

/// "LSUB with reference and a single pattern": no selection, no list of patterns, no RETURN.
#[test]
fn reference_and_a_single_pattern() {
    check(
        TREE,
        &[
            ("a LSUB", Err(4)),
            ("a LSUB ", Err(4)),
            ("a LSUB] \"\" %", Err(4)),
            ("a LSUB(\"\" %", Err(4)),
            ("a LSUB \"\"", Err(4)),
            ("a LSUB \"\" ", Err(4)),
            ("a LSUB  \"\" %", Err(4)),
            ("a LSUB \"\"  %", Err(4)),
            ("a LSUB \"\" % ", Err(4)),
            ("a LSUB \"\"%", Err(4)),
            ("a LSUB () \"\" %", Err(4)),
            ("a LSUB (SUBSCRIBED) \"\" %", Err(4)),
            ("a LSUB \"\" (%)", Err(4)),
            ("a LSUB \"\" (% *)", Err(4)),
            ("a LSUB \"\" % *", Err(4)),
            ("a LSUB \"\" % RETURN ()", Err(4)),
            ("a LSUB \"\" % RETURN (CHILDREN)", Err(4)),
            ("a LSUB % %", Err(4)),
            ("a LSUB * %", Err(4)),
            ("a LSUB \"\" \"Foo", Err(4)),
            ("a LSUB \"\" \"\\Foo\"", Err(4)),
            ("a LSUB \"\" {Foo", Err(4)),
            ("a LSUB \"\" F{2}\r\noo", Err(4)),
            ("a LSUB \"\" {3}\r\nFoo%", Err(4)),
            ("a LSUB \"\" {9}\r\nFoo", Err(3)),
            ("a LSUB {4}\r\nFoo/ {3}\r\n%az", FOO_BAZ),
            ("a LSUB Foo/ Ba%", FOO_BAZ),
            ("a LSUB \"Fo\" \"o/B*\"", FOO_BAZ),
            ("a LSUB \"%/\" %az", FOO_BAZ),
            ("a LSUB NIL %", NO_LINES),
            ("a LSUB ] ]", NO_LINES),
        ],
    );
}

/// 8 is judged on the one canonical pattern, after the whole grammar.
#[test]
fn canonical_lengths() {
    let r = |count| "r".repeat(count);
    check(
        TREE,
        &[
            (&format!("a LSUB \"\" {}", "*".repeat(255)), ALL),
            (&format!("a LSUB \"\" {}", "*".repeat(256)), Err(8)),
            (&format!("a LSUB {} x", r(254)), NO_LINES),
            (&format!("a LSUB {} x", r(255)), Err(8)),
            (&format!("a LSUB {} {{1}}\r\nx", r(255)), Err(8)),
            (&format!("a LSUB {} \"{}\"", r(200), "\\\\".repeat(55)), NO_LINES),
            (&format!("a LSUB {} \"{}\"", r(200), "\\\\".repeat(56)), Err(8)),
            (&format!("a LSUB {} x RETURN ()", r(255)), Err(4)),
        ],
    );
}

/// "An empty pattern is as in an extended command": no root line, however long the reference is.
#[test]
fn empty_patterns() {
    check(
        TREE,
        &[
            ("a LSUB \"\" \"\"", NO_LINES),
            ("a LSUB \"\" {0}\r\n", NO_LINES),
            ("a LSUB \"%\" \"\"", NO_LINES),
            ("a LSUB Q \"\"", NO_LINES),
            (&format!("a LSUB {} \"\"", "r".repeat(300)), NO_LINES),
        ],
    );
}

/// "subscribed names that match, existing or not", "Remote rows are included", and no attribute
/// whatever the flags. Under `*%` every descendant matches, so no line has `\Noselect`.
#[test]
fn subscribed_names() {
    check(
        TREE,
        &[
            ("a LSUB \"\" *", ALL),
            ("a LSUB \"\" *%", ALL),
            ("a LSUB \"\" %*", ALL),
            ("a LSUB \"\" Foo", NO_LINES),
            ("a LSUB \"\" Moo", NO_LINES),
            ("a LSUB \"\" Foo/Bar", NO_LINES),
            ("a LSUB \"\" S%", NO_LINES),
            ("a LSUB R *", Ok(&[r#"* LSUB () "/" "R/r""#, "a OK done"])),
            ("a LSUB R /%", Ok(&[r#"* LSUB () "/" "R/r""#, "a OK done"])),
        ],
    );
    check(&[], &[("a LSUB \"\" *", NO_LINES), ("a LSUB \"\" %", NO_LINES)]);
}

/// "under a pattern ending in "%", an unsubscribed matching candidate with a subscribed descendant
/// that does not match is given with `\Noselect`", and in the order of the names.
#[test]
fn levels_under_a_final_percent() {
    check_dialogue(
        TREE,
        r#"
        C: a LSUB "" %
        S: * LSUB (\Noselect) "/" "Foo"
        S: * LSUB () "/" "INBOX"
        S: * LSUB (\Noselect) "/" "Moo"
        S: * LSUB () "/" "Q"
        S: * LSUB (\Noselect) "/" "R"
        S: a OK done
        C: b LSUB Fo o%
        S: * LSUB (\Noselect) "/" "Foo"
        S: b OK done
        C: c LSUB Foo/ %
        S: * LSUB () "/" "Foo/Baz"
        S: * LSUB (\Noselect) "/" "Foo/x"
        S: c OK done
        C: d LSUB "" %/%
        S: * LSUB () "/" "Foo/Baz"
        S: * LSUB (\Noselect) "/" "Foo/x"
        S: * LSUB () "/" "INBOX/z"
        S: * LSUB () "/" "Moo/\""
        S: * LSUB () "/" "R/r"
        S: d OK done
        C: e LSUB "" %oo%
        S: * LSUB (\Noselect) "/" "Foo"
        S: * LSUB (\Noselect) "/" "Moo"
        S: e OK done
        C: f LSUB "" %o
        S: f OK done
        "#,
    );
}

/// A level is given if one of its subscribed descendants does not match, and once; Foo-x is none of
/// Foo's.
#[test]
fn descendants_that_match() {
    let rows = [
        ("Foo x", "exists subscribed"),
        ("Foo-x", "exists subscribed"),
        ("Foo/a", "exists subscribed"),
        ("Foo/b", "exists"),
        ("Foo/c", "exists subscribed"),
        ("Goo-x", "exists subscribed"),
        ("Goo/a", "exists"),
    ];
    check_dialogue(
        &rows,
        r#"
        C: a LSUB "" %oo%
        S: * LSUB (\Noselect) "/" "Foo"
        S: * LSUB () "/" "Foo x"
        S: * LSUB () "/" "Foo-x"
        S: * LSUB () "/" "Goo-x"
        S: a OK done
        C: b LSUB "" *o%
        S: * LSUB (\Noselect) "/" "Foo"
        S: * LSUB () "/" "Foo x"
        S: * LSUB () "/" "Foo-x"
        S: * LSUB () "/" "Goo-x"
        S: b OK done
        C: c LSUB "" F*%
        S: * LSUB () "/" "Foo x"
        S: * LSUB () "/" "Foo-x"
        S: * LSUB () "/" "Foo/a"
        S: * LSUB () "/" "Foo/c"
        S: c OK done
        "#,
    );
}

/// The rule for INBOX is the pattern's: an implied INBOX and one with a row, in any case of letters.
#[test]
fn inbox_spellings() {
    let own = Ok([r#"* LSUB () "/" "INBOX""#, "a OK done"].as_slice());
    check(
        TREE,
        &[
            ("a LSUB \"\" inbox", own),
            ("a LSUB iN BoX", own),
            ("a LSUB \"\" in%", own),
            ("a LSUB \"\" inbox/%", NO_LINES),
        ],
    );
    let level = Ok([r#"* LSUB (\Noselect) "/" "INBOX""#, "a OK done"].as_slice());
    check(
        &[("INBOX/x", "exists subscribed"), ("inboxx", "exists")],
        &[
            ("a LSUB i \"N%\"", level),
            ("a LSUB \"\" inbox%", level),
            ("a LSUB \"\" inbox", NO_LINES),
        ],
    );
}

/// Its subscribed names are those of LIST (SUBSCRIBED REMOTE), whatever the pattern.
#[test]
fn beside_list() {
    check_dialogue(
        &[("a/b", "exists subscribed remote"), ("c", "exists subscribed"), ("d/e", "subscribed")],
        r#"
        C: a LIST (SUBSCRIBED REMOTE) "" *
        S: * LIST (\Remote \Subscribed) "/" "a/b"
        S: * LIST (\Subscribed) "/" "c"
        S: * LIST (\Subscribed \NonExistent) "/" "d/e"
        S: a OK done
        C: b LSUB "" *
        S: * LSUB () "/" "a/b"
        S: * LSUB () "/" "c"
        S: * LSUB () "/" "d/e"
        S: b OK done
        C: c LIST (SUBSCRIBED RECURSIVEMATCH REMOTE) "" %
        S: * LIST (\NonExistent) "/" "a" ("CHILDINFO" ("SUBSCRIBED"))
        S: * LIST (\Subscribed) "/" "c"
        S: * LIST (\NonExistent) "/" "d" ("CHILDINFO" ("SUBSCRIBED"))
        S: c OK done
        C: d LSUB "" %
        S: * LSUB (\Noselect) "/" "a"
        S: * LSUB () "/" "c"
        S: * LSUB (\Noselect) "/" "d"
        S: d OK done
        "#,
    );
}

/// 9 as for LIST.
#[test]
fn short_buffers() {
    let rows = [("b/c", "exists subscribed")];
    let lines = ["* LSUB (\\Noselect) \"/\" \"b\"", "a OK done"];
    check_rooms(&rows, "a LSUB \"\" %", &lines);
}

/// Reader and line writer stay with LIST lines.
#[test]
fn the_reader_takes_no_lsub_line() {
    for line in ["* LSUB () \"/\" \"a\"\r\n", "* LSUB (\\Noselect) \"/\" \"a\"\r\n"] {
        assert_eq!(read_line(line.as_bytes()), Err(Refusal::Line), "{line}");
    }
}
