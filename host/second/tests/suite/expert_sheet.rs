//! E1 to E8 of the expert's sheet (document 01), E3 with the line that W1 (document 02) adds.

use second::{answer_reading, Refusal, Table};

use crate::common::{check, check_dialogue, check_walk, rows_pass, Rows};

const TABLE_E: &Rows = &[
    ("Foo-x", "0001"),
    ("Foo/Bar", "0001"),
    ("Foo/Baz", "0003"),
    ("INBOX", "0031"),
    ("Moo", "0001"),
];

/// Room enough for every answer of the sheet.
const ROOM: usize = 4_096;

#[test]
fn e1_recursive_match_at_the_top() {
    check_dialogue(
        TABLE_E,
        r#"
        C: C04 LIST (SUBSCRIBED RECURSIVEMATCH) "" "%"
        S: * LIST (\NonExistent) "/" "Foo" ("CHILDINFO" ("SUBSCRIBED"))
        S: C04 OK done
        "#,
    );
}

#[test]
fn e2_recursive_match_everywhere() {
    check_dialogue(
        TABLE_E,
        r#"
        C: C04 LIST (SUBSCRIBED RECURSIVEMATCH) "" "*"
        S: * LIST (\Subscribed) "/" "Foo/Baz"
        S: C04 OK done
        "#,
    );
}

#[test]
fn e3_children() {
    check_dialogue(
        TABLE_E,
        r#"
        C: a LIST "" % RETURN (CHILDREN)
        S: * LIST (\NonExistent \HasChildren) "/" "Foo"
        S: * LIST (\HasNoChildren) "/" "Foo-x"
        S: * LIST (\Marked \NoInferiors) "/" "INBOX"
        S: * LIST (\HasNoChildren) "/" "Moo"
        S: a OK done
        "#,
    );
}

#[test]
fn e4_inbox_in_any_case() {
    check_dialogue(
        TABLE_E,
        r#"
        C: a LIST "" "in%"
        S: * LIST (\Marked \NoInferiors) "/" "INBOX"
        S: a OK done
        C: a LIST "" "moo"
        S: a OK done
        "#,
    );
}

#[test]
fn e5_walks() {
    check_walk(TABLE_E, 0, [ROOM; 3], Ok((2, &["Foo/Baz"], &["Foo"])));
    check_walk(&[], 0, [ROOM; 3], Ok((1, &[], &[])));
}

#[test]
fn e6_empty_patterns() {
    check_dialogue(
        TABLE_E,
        r#"
        C: a LIST "" ""
        S: * LIST (\Noselect) "/" ""
        S: a OK done
        C: a LIST () "" ""
        S: a OK done
        "#,
    );
}

#[test]
fn e7_recursive_match_beside_what() {
    check(
        TABLE_E,
        &[
            (r#"a LIST (RECURSIVEMATCH REMOTE) "" "%""#, Err(7)),
            (r#"a LIST (RECURSIVEMATCH FOO) "" "%""#, Err(6)),
        ],
    );
}

#[test]
fn e8_numbers_of_patterns() {
    check(
        TABLE_E,
        &[
            ("a LIST \"\" (1 2 3 4 5 6 7 8)", Ok(&["a OK done"])),
            ("a LIST \"\" (1 2 3 4 5 6 7 8 9)", Err(8)),
        ],
    );
}

#[test]
fn e8_lengths_of_canonical_patterns() {
    let [longest, too_long] = [255, 256].map(|length| {
        let (reference, pattern) = ("r".repeat(100), "p".repeat(length - 100));
        format!("a LIST {reference} {pattern}")
    });
    check(TABLE_E, &[(&longest, Ok(&["a OK done"])), (&too_long, Err(8))]);
}

#[test]
fn e8_lengths_of_names() {
    for (length, passes) in [(200, true), (201, false)] {
        let name = "n".repeat(length);
        let rows = [(name.as_str(), "0001")];
        assert_eq!(rows_pass(&rows), passes, "a name of {length} bytes");
        let line = format!("* LIST () \"/\" \"{name}\"");
        let listed = [line.as_str(), "a OK done"];
        let expected: Result<&[&str], u8> = if passes { Ok(&listed) } else { Err(1) };
        check(&rows, &[("a LIST \"\" *", expected)]);
    }
}

#[test]
fn e8_lengths_of_lines() {
    for (length, expected) in [(2_048, Ok(())), (2_049, Err(Refusal::LineShape))] {
        let rest = " NAMESPACE\r\n";
        let line = "t".repeat(length - rest.len()) + rest;
        let result = answer_reading(0, Table::EMPTY, &[], line.as_bytes(), &mut [0; ROOM]);
        assert_eq!(result.map(drop), expected, "a line of {length} bytes");
    }
}
