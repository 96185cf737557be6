//! Literals in commands (document 02, W2), by the sentences of the request.

use second::frames::{self, hex_of};
use second::{answer_reading, Refusal, Table};

use crate::common::{check, table_of, Exchange, Rows};

const ONE_ROW: &Rows = &[("x", "exists")];
const NO_LINES: Result<&[&str], u8> = Ok(&["a OK done"]);
const X_LISTED: Result<&[&str], u8> = Ok(&[r#"* LIST () "/" "x""#, "a OK done"]);
const ROOT: Result<&[&str], u8> = Ok(&[r#"* LIST (\Noselect) "/" """#, "a OK done"]);

/// The number that a command of any bytes is refused with, 0 if it is answered.
fn number_of(command: &[u8]) -> u8 {
    let table = table_of(ONE_ROW);
    let result = answer_reading(0, Table::Packed(&table), &[], command, &mut [0; 4_096]);
    result.err().map_or(0, Refusal::number)
}

/// "n bytes 01 to FF count as a string wherever an astring or pattern may stand."
#[test]
fn wherever_an_astring_or_pattern_may_stand() {
    check(
        ONE_ROW,
        &[
            ("a LIST \"\" {1}\r\nx", X_LISTED),
            ("a LIST {0}\r\n x", X_LISTED),
            ("a LIST {1}\r\nx %", X_LISTED),
            ("a LIST {0}\r\n {1}\r\nx", X_LISTED),
            ("a LIST {1}\r\nx {1}\r\n*", X_LISTED),
            ("a LIST \"\" ({1}\r\nx)", X_LISTED),
            ("a LIST \"\" (y {1}\r\nx)", X_LISTED),
            ("a LIST \"\" ({1}\r\nx {1}\r\ny \"z\")", X_LISTED),
            ("a LIST \"\" {1}\r\nx RETURN (CHILDREN {1}\r\nx)", Err(4)),
            ("a LIST (REMOTE) {1}\r\nx {0}\r\n RETURN ()", NO_LINES),
            ("a LIST \"\" {001}\r\nx", X_LISTED),
            ("a LIST (FOO ({1}\r\nv)) \"\" x", Err(6)),
            ("a LIST (FOO (v {0}\r\n {1}\r\n))) \"\" x", Err(6)),
            ("a LIST (FOO (({3}\r\na b) {1}\r\n()) \"\" x", Err(6)),
            ("a LIST \"\" x RETURN (FOO ({1}\r\nv))", Err(6)),
        ],
    );
}

/// Everywhere else a literal is off the grammar: tag 4, then an empty or other word 5, then 4.
#[test]
fn nowhere_else() {
    check(ONE_ROW, NOWHERE_ELSE);
}

const NOWHERE_ELSE: &[Exchange] = &[
    ("{1}\r\na LIST \"\" x", Err(4)),
    ("a{1}\r\nb LIST \"\" x", Err(4)),
    ("a{0}\r\n LIST \"\" x", Err(4)),
    ("a {4}\r\nLIST \"\" x", Err(5)),
    ("a LI{2}\r\nST \"\" x", Err(5)),
    ("a NOOP {1}\r\nx", Err(5)),
    ("a LIST{0}\r\n \"\" x", Err(4)),
    ("a NAMESPACE{0}\r\n", Err(4)),
    ("a NAMESPACE {0}\r\n", Err(4)),
    ("a LIST {8}\r\n(REMOTE) \"\" x", Err(4)),
    ("a LIST ({6}\r\nREMOTE) \"\" x", Err(4)),
    ("a LIST (REMOTE{0}\r\n) \"\" x", Err(4)),
    ("a LIST (FOO {1}\r\nv) \"\" x", Err(4)),
    ("a LIST (FOO {3}\r\n(v)) \"\" x", Err(4)),
    ("a LIST (FOO (v{0}\r\n)) \"\" x", Err(4)),
    ("a LIST {0}\r\n", Err(4)),
    ("a LIST {0}\r\n ", Err(4)),
    ("a LIST {0}\r\nx", Err(4)),
    ("a LIST {0}\r\n\"\" x", Err(4)),
    ("a LIST \"\"{1}\r\nx", Err(4)),
    ("a LIST \"\" y{1}\r\nx", Err(4)),
    ("a LIST \"\" {1}\r\nxy", Err(4)),
    ("a LIST \"\" {1}\r\nx{0}\r\n", Err(4)),
    ("a LIST \"\" {1}\r\nx ", Err(4)),
    ("a LIST \"\" x {0}\r\n", Err(4)),
    ("a LIST \"\" x{0}\r\n", Err(4)),
    ("a LIST \"\" ({1}\r\nx", Err(4)),
    ("a LIST \"\" ({1}\r\nx{1}\r\ny)", Err(4)),
    ("a LIST \"\" x {6}\r\nRETURN ()", Err(4)),
    ("a LIST \"\" x RETURN {2}\r\n()", Err(4)),
    ("a LIST \"\" x RETURN ({8}\r\nCHILDREN)", Err(4)),
    ("a LIST \"\" x RETURN (){0}\r\n", Err(4)),
];

/// "Any line that ends, outside literals, in `{`, one or more digits and `}` is read so, wherever
/// that stands, and the grammar judges afterwards with 4."
#[test]
fn headers_in_quotes_and_in_literals() {
    check(
        ONE_ROW,
        &[
            ("a LIST \"\" \"{1}\r\nx\"", Err(4)),
            ("a LIST \"{1}\r\nx\" x", Err(4)),
            ("a LIST \"\" \"{0}\r\n", Err(4)),
            ("a LIST \"\" \"{1}", Err(3)),
            ("a LIST \"\" \"{1}\"", NO_LINES),
            ("a LIST \"\" {5}\r\n{9}\r\n", NO_LINES),
            ("a LIST \"\" {3}\r\n{9}", NO_LINES),
            ("a LIST \"\" {1}\r\n{9}", Err(4)),
            ("a LIST {1}\r\n{ {1}\r\nx", NO_LINES),
        ],
    );
}

/// `{3+}`, `{}` and `{ 3}` are text, and so is a header with anything behind it.
#[test]
fn lines_that_end_otherwise() {
    for end in ["{}", "{3+}", "{ 3}", "{3 }", "{-3}", "{+3}", "{3", "{3}x", "{3} ", "{x}"] {
        check(ONE_ROW, &[(&format!("a LIST \"\" {end}"), Err(4))]);
        check(ONE_ROW, &[(&format!("a LIST \"\" {end}\r\nabc"), Err(3))]);
    }
}

/// "a literal cut short is 3 too": no byte of the command is missing, and none is left over.
#[test]
fn cut_short_or_with_bytes_behind() {
    check(
        ONE_ROW,
        &[
            ("a LIST \"\" {3}", Err(3)),
            ("a LIST \"\" {0}", Err(3)),
            ("a NOOP {3}", Err(3)),
            ("{0}", Err(3)),
            ("a LIST \"\" {5}\r\nab", Err(3)),
            ("a LIST \"\" {4}\r\nab", Err(3)),
            ("a LIST \"\" {3}\r\nab", Err(3)),
            ("a LIST \"\" {2}\r\nab", NO_LINES),
            ("a LIST \"\" {1}\r\nx\r\nx", Err(3)),
            ("a LIST \"\" {1}\r\nx\r\n", Err(3)),
            ("a NAMESPACE\r\nx", Err(3)),
        ],
    );
    let whole = b"a LIST {1}\r\nx {1}\r\n%\r\n";
    assert_eq!(number_of(whole), 0);
    for length in 0..whole.len() {
        assert_eq!(number_of(&whole[..length]), Refusal::LineShape.number(), "{length}");
    }
}

/// "`{n}` CR LF with n up to 1,024"; "A larger n .. is refused with 3", before tag and word.
#[test]
fn both_sides_of_1024() {
    let reference = |length: usize| format!("a LIST {{{length}}}\r\n{} \"\"", "r".repeat(length));
    check(ONE_ROW, &[(&reference(1_024), ROOT), (&reference(1_025), Err(3))]);
    let digits = |last: &str| format!("a LIST \"\" {{{}{last}}}\r\nx", "0".repeat(1_499));
    check(ONE_ROW, &[(&digits("1"), X_LISTED), (&digits("2"), Err(3))]);
    for n in ["1025", "18446744073709551617", &"9".repeat(1_500)] {
        check(ONE_ROW, &[(&format!("+ NOOP {{{n}}}\r\nx"), Err(3))]);
    }
}

/// "a command over 2,048 bytes in all": text, headers, literals and every CR LF.
#[test]
fn both_sides_of_2048() {
    for (length, number) in [(2_047, 0), (2_048, 0), (2_049, 3)] {
        let header = "a LIST {1000}\r\n";
        let second = length - header.len() - 1_000 - " {900}\r\n\r\n".len() - 900;
        let middle = format!(" ({} {{900}}\r\n", "p".repeat(second - 3));
        let command = [header, &"r".repeat(1_000), &middle, &"q".repeat(900), ")\r\n"].concat();
        assert_eq!(command.len(), length);
        // Over 255 bytes, which is judged after the shape.
        assert_eq!(number_of(command.as_bytes()), if number == 0 { 8 } else { number });
    }
}

/// "n bytes 01 to FF": CR, LF and 80 to FF too. "a byte 00 anywhere" is 3.
#[test]
fn bytes_of_literals() {
    for byte in 0..=u8::MAX {
        let expected = if byte == 0 { Refusal::LineShape.number() } else { 0 };
        let pattern = [b"a LIST \"\" {3}\r\nx", [byte].as_slice(), b"y\r\n"].concat();
        assert_eq!(number_of(&pattern), expected, "{byte}");
        let reference = [b"a LIST {1}\r\n", [byte].as_slice(), b" x\r\n"].concat();
        assert_eq!(number_of(&reference), expected, "{byte}");
    }
}

/// "Check 3 of document 01 now reads over the text outside literals".
#[test]
fn bytes_outside_literals() {
    for byte in [0x00, 0x80, 0xFF, b'\r', b'\n'] {
        for (before, behind) in [
            (b"a LIST \"".as_slice(), b"\" {1}\r\nx\r\n".as_slice()),
            (b"a LIST {1}\r\nx \"", b"\" {1}\r\nx\r\n"),
            (b"a LIST \"\" {1}\r\nx", b" RETURN ()\r\n"),
            (b"a LIST \"\" {1}\r\nx", b"\r\n"),
        ] {
            let command = [before, &[byte], behind].concat();
            assert_eq!(
                number_of(&command),
                Refusal::LineShape.number(),
                "{}",
                command.escape_ascii()
            );
        }
    }
    assert_eq!(number_of(b"a LIST \"\x7F\x01\" {1}\r\nx\r\n"), 0);
}

/// Its "%" and "*" are wildcards, its quotes and backslashes stand for themselves.
#[test]
fn literals_as_patterns() {
    let rows: &Rows = &[("INBOX", "exists"), ("a b", "exists"), ("q\"q\\", "exists")];
    let line = |name: &str| format!("* LIST () \"/\" \"{name}\"");
    let inbox = line("INBOX");
    for (pattern, name) in [
        ("a b", "a b"),
        ("a%", "a b"),
        ("q\"q\\", "q\\\"q\\\\"),
        ("*\\", "q\\\"q\\\\"),
        ("inbox", "INBOX"),
        ("iN%X", "INBOX"),
    ] {
        for cut in 0..=pattern.len() {
            let (reference, rest) = pattern.split_at(cut);
            if rest.is_empty() {
                continue;
            }
            let (first, second) = (reference.len(), rest.len());
            let command = format!("a LIST {{{first}}}\r\n{reference} {{{second}}}\r\n{rest}");
            check(rows, &[(&command, Ok(&[&line(name), "a OK done"]))]);
        }
    }
    check(rows, &[("a LIST {2}\r\nIN ({0}\r\n {2}\r\nB%)", Ok(&[&inbox, "a OK done"]))]);
    check(rows, &[("a LIST {2}\r\nIN ({0}\r\n {2}\r\nC%)", NO_LINES)]);
}

/// An empty literal is an empty pattern; the bytes of others count for the 255, and for the eight.
#[test]
fn empty_and_long_literals() {
    let pattern = |length: usize| format!("{{{length}}}\r\n{}", "%".repeat(length));
    check(
        ONE_ROW,
        &[
            ("a LIST \"\" {0}\r\n", ROOT),
            ("a LIST \"\" ({0}\r\n)", NO_LINES),
            ("a LIST \"\" {0}\r\n RETURN ()", NO_LINES),
            (&format!("a LIST \"\" {}", pattern(255)), X_LISTED),
            (&format!("a LIST \"\" {}", pattern(256)), Err(8)),
            (&format!("a LIST {} x", pattern(254)), X_LISTED),
            (&format!("a LIST {} x", pattern(255)), Err(8)),
            (&format!("a LIST {} {{0}}\r\n", pattern(1_000)), ROOT),
            (&format!("a LIST \"\" ({}x)", "{0}\r\n ".repeat(7)), X_LISTED),
            (&format!("a LIST \"\" ({}x)", "{0}\r\n ".repeat(8)), Err(8)),
        ],
    );
}

/// A frame of 43 is one whole command with its literals in it; no `+ go` is in its answer.
#[test]
fn a_frame_with_literals() {
    let frame = |first, bytes: &[u8]| [&hex_of(&[&[first], bytes].concat()), &b"\n"[..]].concat();
    let row = frame(frames::ROW, b"\x00\x01\xFF\x01x");
    let command = frame(frames::COMMAND, b"\0a LIST {0}\r\n {1}\r\nx\r\n");
    let cut = frame(frames::COMMAND, b"\0a LIST {0}\r\n {1}\r\n");
    let listed = frame(frames::ANSWER, b"* LIST () \"/\" \"x\"\r\na OK done\r\n");
    let mut output = Vec::new();
    frames::run([row, command, cut].concat().as_slice(), &mut output).expect("no error in memory");
    assert_eq!(output, [listed, b"5203\n".to_vec()].concat());
}
