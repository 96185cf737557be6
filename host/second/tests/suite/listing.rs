//! What is listed, beside the RFCs' examples: implied names, remote names, order, attributes, and
//! the levels of W1 (document 02).

use crate::common::{check_dialogue, check_rooms, Rows};

/// The implied Foo stands before Foo-x, and Foo-x is no descendant of Foo.
#[test]
fn implied_names_in_order() {
    let rows = [
        ("Foo x", "exists subscribed"),
        ("Foo-x", "exists subscribed"),
        ("Foo.x", "exists"),
        ("Foo/Bar/Baz", "subscribed"),
    ];
    check_dialogue(
        &rows,
        r#"
        C: a LIST (SUBSCRIBED RECURSIVEMATCH) "" % RETURN (CHILDREN)
        S: * LIST (\NonExistent \HasNoChildren) "/" "Foo" ("CHILDINFO" ("SUBSCRIBED"))
        S: * LIST (\Subscribed \HasNoChildren) "/" "Foo x"
        S: * LIST (\Subscribed \HasNoChildren) "/" "Foo-x"
        S: a OK done
        C: a LIST (SUBSCRIBED RECURSIVEMATCH) Foo/ %
        S: * LIST (\NonExistent) "/" "Foo/Bar" ("CHILDINFO" ("SUBSCRIBED"))
        S: a OK done
        C: a LIST "" Foo
        S: a OK done
        "#,
    );
}

/// A listed parent shows CHILDINFO although its meeting descendant matches; an unlisted one
/// stays so unless some meeting descendant matches no pattern.
#[test]
fn recursive_match_with_several_patterns() {
    let rows = [("a", "exists"), ("a/b", "exists subscribed"), ("a/c", "exists subscribed")];
    check_dialogue(
        &rows,
        r#"
        C: a LIST (SUBSCRIBED RECURSIVEMATCH) "" (a a/b)
        S: * LIST () "/" "a" ("CHILDINFO" ("SUBSCRIBED"))
        S: * LIST (\Subscribed) "/" "a/b"
        S: a OK done
        C: a LIST (SUBSCRIBED RECURSIVEMATCH) "" (a a/b a/c)
        S: * LIST (\Subscribed) "/" "a/b"
        S: * LIST (\Subscribed) "/" "a/c"
        S: a OK done
        "#,
    );
}

/// A remote parent stands there for CHILDINFO alone, with `\Subscribed` and `\Remote`.
#[test]
fn remote_names() {
    let rows = [
        ("far", "exists subscribed remote"),
        ("far/near", "exists subscribed"),
        ("near", "exists"),
        ("near/far", "exists remote"),
    ];
    check_dialogue(
        &rows,
        r#"
        C: a LIST (SUBSCRIBED RECURSIVEMATCH) "" %
        S: * LIST (\Remote \Subscribed) "/" "far" ("CHILDINFO" ("SUBSCRIBED"))
        S: a OK done
        C: a LIST "" * RETURN (CHILDREN)
        S: * LIST (\HasNoChildren) "/" "far/near"
        S: * LIST (\HasNoChildren) "/" "near"
        S: a OK done
        C: a LIST (REMOTE) "" * RETURN (CHILDREN)
        S: * LIST (\Remote \HasChildren) "/" "far"
        S: * LIST (\HasNoChildren) "/" "far/near"
        S: * LIST (\HasChildren) "/" "near"
        S: * LIST (\Remote \HasNoChildren) "/" "near/far"
        S: a OK done
        "#,
    );
}

#[test]
fn every_attribute() {
    let rows = [
        ("a", "exists subscribed remote noselect noinferiors marked all archive"),
        ("b", "exists unmarked drafts flagged junk sent trash"),
        ("c", "subscribed"),
    ];
    check_dialogue(
        &rows,
        r#"
        C: a LIST (REMOTE) "" * RETURN (SUBSCRIBED CHILDREN SPECIAL-USE)
        S: * LIST (\Marked \Noselect \NoInferiors \Remote \Subscribed \All \Archive) "/" "a"
        S: * LIST (\Unmarked \Drafts \Flagged \Junk \Sent \Trash \HasNoChildren) "/" "b"
        S: a OK done
        C: a LIST (REMOTE) "" *
        S: * LIST (\Marked \Noselect \NoInferiors \Remote) "/" "a"
        S: * LIST (\Unmarked) "/" "b"
        S: a OK done
        C: a LIST (SUBSCRIBED) "" * RETURN (CHILDREN)
        S: * LIST (\Subscribed \NonExistent \HasNoChildren) "/" "c"
        S: a OK done
        C: a LIST (SUBSCRIBED SPECIAL-USE) "" *
        S: a OK done
        "#,
    );
}

/// The pattern's letters are raised for INBOX alone, reference too.
#[test]
fn inbox_spellings() {
    let rows = [("INBOX/x", "exists subscribed"), ("inboxx", "exists")];
    check_dialogue(
        &rows,
        r#"
        C: a LIST (SUBSCRIBED RECURSIVEMATCH) in box
        S: * LIST (\NonExistent) "/" "INBOX" ("CHILDINFO" ("SUBSCRIBED"))
        S: a OK done
        C: a LIST "" inbox/x
        S: a OK done
        C: a LIST "" INBOX/x
        S: * LIST () "/" "INBOX/x"
        S: a OK done
        C: a LIST "" INBOXX
        S: a OK done
        "#,
    );
}

#[test]
fn quotes_and_backslashes() {
    check_dialogue(
        &[("a\"b", "exists"), ("a\\b", "exists"), ("c d", "exists")],
        r#"
        C: a LIST "" *
        S: * LIST () "/" "a\"b"
        S: * LIST () "/" "a\\b"
        S: * LIST () "/" "c d"
        S: a OK done
        "#,
    );
}

/// Levels without a mailbox: a row 0002, a parent of a remote row, and two of a local one. Q
/// exists, and below it is nothing that does.
const LEVELS: &Rows = &[
    ("P", "subscribed"),
    ("P/q", "exists"),
    ("Q", "exists"),
    ("Q/n", "subscribed"),
    ("R/r", "exists remote"),
    ("S/t", "subscribed"),
    ("T/u/v", "exists trash"),
];

/// W1: a level above what meets the criteria is listed under a pattern that ends in "%" and
/// matches it, whatever comes before that "%", and whether the descendant matches or not.
#[test]
fn levels_under_a_final_percent() {
    check_dialogue(
        LEVELS,
        r#"
        C: a LIST "" %
        S: * LIST (\NonExistent \HasChildren) "/" "P"
        S: * LIST () "/" "Q"
        S: * LIST (\NonExistent \HasChildren) "/" "T"
        S: a OK done
        C: b LIST "" "%%"
        S: * LIST (\NonExistent \HasChildren) "/" "P"
        S: * LIST () "/" "Q"
        S: * LIST (\NonExistent \HasChildren) "/" "T"
        S: b OK done
        C: c LIST "" *%
        S: * LIST (\NonExistent \HasChildren) "/" "P"
        S: * LIST () "/" "P/q"
        S: * LIST () "/" "Q"
        S: * LIST (\NonExistent \HasChildren) "/" "T"
        S: * LIST (\NonExistent \HasChildren) "/" "T/u"
        S: * LIST () "/" "T/u/v"
        S: c OK done
        C: d LIST T /%
        S: * LIST (\NonExistent \HasChildren) "/" "T/u"
        S: d OK done
        C: e LIST "" T%
        S: * LIST (\NonExistent \HasChildren) "/" "T"
        S: e OK done
        C: f LIST "" %/u%
        S: * LIST (\NonExistent \HasChildren) "/" "T/u"
        S: f OK done
        "#,
    );
}

/// W1 asks for that very pattern: one of another ending that matches the level does not list it,
/// nor does a reference that ends in "%" before an empty pattern.
#[test]
fn levels_under_other_patterns() {
    check_dialogue(
        LEVELS,
        r#"
        C: a LIST "" (T* P x%)
        S: * LIST () "/" "T/u/v"
        S: a OK done
        C: b LIST "" (%* %/u x%)
        S: * LIST () "/" "P/q"
        S: * LIST () "/" "Q"
        S: * LIST () "/" "T/u/v"
        S: b OK done
        C: c LIST "" (P T%)
        S: * LIST (\NonExistent \HasChildren) "/" "T"
        S: c OK done
        C: d LIST () "%" ""
        S: d OK done
        C: e LIST "%" ("" u)
        S: e OK done
        "#,
    );
}

/// W1 is for commands that select none of SUBSCRIBED, RECURSIVEMATCH and SPECIAL-USE. REMOTE
/// lets remote descendants count; what is returned does not matter.
#[test]
fn levels_and_options() {
    check_dialogue(
        LEVELS,
        r#"
        C: a LIST (REMOTE) "" %
        S: * LIST (\NonExistent \HasChildren) "/" "P"
        S: * LIST () "/" "Q"
        S: * LIST (\NonExistent \HasChildren) "/" "R"
        S: * LIST (\NonExistent \HasChildren) "/" "T"
        S: a OK done
        C: b LIST "" % RETURN (SUBSCRIBED CHILDREN SPECIAL-USE)
        S: * LIST (\Subscribed \NonExistent \HasChildren) "/" "P"
        S: * LIST (\HasNoChildren) "/" "Q"
        S: * LIST (\NonExistent \HasChildren) "/" "T"
        S: b OK done
        C: c LIST (SUBSCRIBED) "" %
        S: * LIST (\Subscribed \NonExistent) "/" "P"
        S: c OK done
        C: d LIST (SUBSCRIBED RECURSIVEMATCH) "" %
        S: * LIST (\Subscribed \NonExistent) "/" "P"
        S: * LIST () "/" "Q" ("CHILDINFO" ("SUBSCRIBED"))
        S: * LIST (\NonExistent) "/" "S" ("CHILDINFO" ("SUBSCRIBED"))
        S: d OK done
        C: e LIST (SPECIAL-USE) "" %
        S: e OK done
        C: f LIST (SPECIAL-USE REMOTE) "" *%
        S: * LIST (\Trash) "/" "T/u/v"
        S: f OK done
        "#,
    );
}

/// W1 and the rule for INBOX: an implied one is listed for `in%`; inbox below it is no INBOX.
#[test]
fn an_implied_inbox() {
    check_dialogue(
        &[("INBOX/inbox/x", "exists"), ("inboxx/y", "exists")],
        r#"
        C: a LIST "" in%
        S: * LIST (\NonExistent \HasChildren) "/" "INBOX"
        S: * LIST (\NonExistent \HasChildren) "/" "inboxx"
        S: a OK done
        C: b LIST "" inbox/%
        S: b OK done
        C: c LIST INBOX /%
        S: * LIST (\NonExistent \HasChildren) "/" "INBOX/inbox"
        S: c OK done
        C: d LIST "" inbox
        S: d OK done
        "#,
    );
}

/// 9 counts the lines of W1 too.
#[test]
fn levels_count_for_the_buffer() {
    let lines = ["* LIST (\\NonExistent \\HasChildren) \"/\" \"b\"", "a OK done"];
    check_rooms(&[("b/c", "exists")], "a LIST \"\" %", &lines);
}
