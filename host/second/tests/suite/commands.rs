//! The command line: refusals 3 to 9, and what is lawful beside them.

use second::{answer_reading, Refusal, Table};

use crate::common::{check, check_rooms, Exchange, Rows};

const ONE_ROW: &Rows = &[("x", "exists")];
const NO_LINES: Result<&[&str], u8> = Ok(&["a OK done"]);
const X_LISTED: Result<&[&str], u8> = Ok(&[r#"* LIST () "/" "x""#, "a OK done"]);
const ROOT: Result<&[&str], u8> = Ok(&[r#"* LIST (\Noselect) "/" """#, "a OK done"]);

/// Shape is judged on bytes, so these lines stand with their ends.
#[test]
fn line_shapes() {
    let lines: [(&[u8], Result<usize, u8>); 11] = [
        (b"", Err(3)),
        (b"\r", Err(3)),
        (b"\n", Err(3)),
        (b"a NAMESPACE", Err(3)),
        (b"a NAMESPACE\n", Err(3)),
        (b"a NAMESPACE\r", Err(3)),
        (b"a\r NAMESPACE\r\n", Err(3)),
        (b"a NAMESPACE\r\n\r\n", Err(3)),
        (b"a NAME\x00SPACE\r\n", Err(3)),
        (b"a NAME\x80SPACE\r\n", Err(3)),
        (b"\r\n", Err(4)),
    ];
    for (line, expected) in lines {
        let result =
            answer_reading(0, Table::EMPTY, &[], line, &mut [0; 100]).map_err(Refusal::number);
        assert_eq!(result, expected, "{line:?}");
    }
}

#[test]
fn tags_and_words() {
    check(
        ONE_ROW,
        &[
            ("a", Err(4)),
            (" LIST \"\" x", Err(4)),
            ("a+ LIST \"\" x", Err(4)),
            ("a{ LIST \"\" x", Err(4)),
            ("a( LIST \"\" x", Err(4)),
            ("a\t LIST \"\" x", Err(4)),
            ("a\x7F LIST \"\" x", Err(4)),
            ("a*", Err(4)),
            ("a ", Err(5)),
            ("a  LIST \"\" x", Err(5)),
            ("a NOOP", Err(5)),
            ("a LIST+", Err(5)),
            ("a LIST} \"\" x", Err(5)),
            ("a LISTS \"\" x", Err(5)),
            ("a NAMESPACES", Err(5)),
            ("a LIST", Err(4)),
            ("a LIST ", Err(4)),
            ("a LIST] \"\" x", Err(4)),
            ("a LIST( \"\" x", Err(4)),
            ("a LIST\"\" x", Err(4)),
            ("a LIST() \"\" x", Err(4)),
            ("a NAMESPACE ", Err(4)),
            ("a NAMESPACE x", Err(4)),
            ("a NAMESPACE]", Err(4)),
            ("a NAMESPACE(", Err(4)),
            ("a list \"\" x", X_LISTED),
            ("a LiSt \"\" x", X_LISTED),
            ("a nameSpace", Ok(&["* NAMESPACE NIL NIL NIL", "a OK done"])),
            ("]}! LIST \"\" y", Ok(&["]}! OK done"])),
        ],
    );
}

#[test]
fn references_and_patterns() {
    check(ONE_ROW, REFERENCES_AND_PATTERNS);
}

const REFERENCES_AND_PATTERNS: &[Exchange] = &[
    ("a LIST \"\"", Err(4)),
    ("a LIST \"\" ", Err(4)),
    ("a LIST  \"\" x", Err(4)),
    ("a LIST \"\"  x", Err(4)),
    ("a LIST \"\" x ", Err(4)),
    ("a LIST \"\" x y", Err(4)),
    ("a LIST \"\"x", Err(4)),
    ("a LIST % x", Err(4)),
    ("a LIST * x", Err(4)),
    ("a LIST \"%\" \"\"", ROOT),
    ("a LIST \"%\" x", X_LISTED),
    ("a LIST \"x\" %", X_LISTED),
    ("a LIST x %", X_LISTED),
    ("a LIST x *]", NO_LINES),
    ("a LIST NIL x", NO_LINES),
    ("a LIST ] ]", NO_LINES),
    ("a LIST { x", Err(4)),
    ("a LIST {0} x", Err(4)),
    ("a LIST \"\" {", Err(4)),
    ("a LIST \"\" x\\", Err(4)),
    ("a LIST \"\" \"x", Err(4)),
    ("a LIST \"\" \"x\\\"", Err(4)),
    ("a LIST \"\" \"\\x\"", Err(4)),
    ("a LIST \"\" \"\\\\\\\"\"", NO_LINES),
    ("a LIST \"\" \"\x01\t\x7F\"", NO_LINES),
    ("a LIST \"\" ()", Err(4)),
    ("a LIST \"\" ( x)", Err(4)),
    ("a LIST \"\" (x )", Err(4)),
    ("a LIST \"\" (x  y)", Err(4)),
    ("a LIST \"\" (x", Err(4)),
    ("a LIST \"\" ((x))", Err(4)),
    ("a LIST \"\" (x)", X_LISTED),
    ("a LIST \"\" (x x % *)", X_LISTED),
    ("a LIST \"\" (\"\")", NO_LINES),
    ("a LIST \"\" \"\"", ROOT),
    ("a LIST \"\" \"\" RETURN ()", NO_LINES),
];

#[test]
fn options() {
    check(
        ONE_ROW,
        &[
            ("a LIST () \"\" x", X_LISTED),
            ("a LIST ( ) \"\" x", Err(4)),
            ("a LIST (REMOTE ) \"\" x", Err(4)),
            ("a LIST ( REMOTE) \"\" x", Err(4)),
            ("a LIST (REMOTE  REMOTE) \"\" x", Err(4)),
            ("a LIST (REMOTE]) \"\" x", Err(4)),
            ("a LIST (\"REMOTE\") \"\" x", Err(4)),
            ("a LIST (REMOTE)\"\" x", Err(4)),
            ("a LIST (REMOTE", Err(4)),
            ("a LIST (remote Remote) \"\" x", X_LISTED),
            ("a LIST (CHILDREN) \"\" x", Err(6)),
            ("a LIST (REMOTE+) \"\" x", Err(6)),
            ("a LIST (REMOTE (x)) \"\" x", Err(6)),
            ("a LIST \"\" x RETURN", Err(4)),
            ("a LIST \"\" x RETURN ", Err(4)),
            ("a LIST \"\" x RETURN()", Err(4)),
            ("a LIST \"\" x RETURN  ()", Err(4)),
            ("a LIST \"\" x RETURNS ()", Err(4)),
            ("a LIST \"\" x RETURN () ", Err(4)),
            ("a LIST \"\" x \"RETURN\" ()", Err(4)),
            ("a LIST \"\" x return ()", X_LISTED),
            ("a LIST \"\" x RETURN (SUBSCRIBED SPECIAL-USE subscribed)", X_LISTED),
            ("a LIST \"\" x RETURN (REMOTE)", Err(6)),
            ("a LIST \"\" x RETURN (RECURSIVEMATCH)", Err(6)),
            ("a LIST \"\" x RETURN (CHILDREN (x))", Err(6)),
        ],
    );
}

#[test]
fn option_values() {
    let with_value = |value: &str| format!("a LIST (FOO{value}) \"\" x");
    let values = [
        (" (a)", 6),
        (" (a b \"c\" ])", 6),
        (" (\"\")", 6),
        (" ((a) ((b c)) d)", 6),
        (" (a) BAR (b)", 6),
        (" ()", 4),
        (" (())", 4),
        (" (a ())", 4),
        (" (a) (b)", 4),
        ("(a)", 4),
        (" ((a)(b))", 4),
        (" (a", 4),
        (" (%)", 4),
        (" ( a)", 4),
        (" (a )", 4),
    ];
    for (value, number) in values {
        check(ONE_ROW, &[(&with_value(value), Err(number))]);
    }
    for depth in [100, 1_000] {
        let deep = format!(" {}a{}", "(".repeat(depth), ")".repeat(depth));
        check(ONE_ROW, &[(&with_value(&deep), Err(6))]);
        let unclosed = format!(" {}a{}", "(".repeat(depth), ")".repeat(depth - 1));
        check(ONE_ROW, &[(&with_value(&unclosed), Err(4))]);
    }
}

/// The whole rest is judged by the grammar, then 6 over both lists, then 7, then 8.
#[test]
fn order_of_refusals() {
    check(
        ONE_ROW,
        &[
            ("a NOOP (", Err(5)),
            ("a LIST (FOO) \"\" x RETURN (", Err(4)),
            ("a LIST (FOO) \"\" (1 2 3 4 5 6 7 8 9 ", Err(4)),
            ("a LIST (RECURSIVEMATCH) \"\" x RETURN (FOO)", Err(6)),
            ("a LIST (FOO) \"\" (1 2 3 4 5 6 7 8 9)", Err(6)),
            ("a LIST (RECURSIVEMATCH) \"\" (1 2 3 4 5 6 7 8 9)", Err(7)),
            ("a LIST (RECURSIVEMATCH) \"\" x RETURN (SUBSCRIBED)", Err(7)),
            ("a LIST (RECURSIVEMATCH SPECIAL-USE) \"\" x", NO_LINES),
            ("a LIST (RECURSIVEMATCH SUBSCRIBED) \"\" x", NO_LINES),
        ],
    );
}

#[test]
fn canonical_lengths() {
    let r = |count| "r".repeat(count);
    let escaped = |count| format!("\"{}\"", "\\\\".repeat(count));
    check(
        ONE_ROW,
        &[
            (&format!("a LIST {} \"\"", r(300)), ROOT),
            (&format!("a LIST {} (\"\" \"\")", r(300)), NO_LINES),
            (&format!("a LIST {} (\"\" x)", r(254)), NO_LINES),
            (&format!("a LIST {} (\"\" x)", r(255)), Err(8)),
            (&format!("a LIST {} {}", r(200), escaped(55)), NO_LINES),
            (&format!("a LIST {} {}", r(200), escaped(56)), Err(8)),
            ("a LIST \"\" (\"\" \"\" \"\" \"\" \"\" \"\" \"\" x)", X_LISTED),
            ("a LIST \"\" (\"\" \"\" \"\" \"\" \"\" \"\" \"\" \"\" x)", Err(8)),
        ],
    );
}

#[test]
fn short_buffers() {
    check_rooms(&[], "a LIST \"\" \"\"", ROOT.expect("an answer"));
}
