//! Words, names as they are written, and the spelling of INBOX.

use crate::stores::{check_edit, check_numbers, row, rows_of, run, store, tree};

/// "Check 5 now knows five words", in any case of letters.
#[test]
fn words() {
    check_numbers(
        &tree(),
        [
            ("a SUBSCRIBE Foo", Ok(())),
            ("a subscribe Foo", Ok(())),
            ("a UNSUBSCRIBE Foo", Ok(())),
            ("a unSubScribe Foo", Ok(())),
            ("a SUBSCRIB Foo", Err(5)),
            ("a SUBSCRIBES Foo", Err(5)),
            ("a SUBSCRIBED Foo", Err(5)),
            ("a SUBSCRIBE+ Foo", Err(5)),
            ("a UN-SUBSCRIBE Foo", Err(5)),
            ("a UNSUBSCRIBED Foo", Err(5)),
            ("a  SUBSCRIBE Foo", Err(5)),
            ("a+ SUBSCRIBE Foo", Err(4)),
            (" SUBSCRIBE Foo", Err(4)),
        ],
    );
}

/// "with one mailbox name (an astring)"
#[test]
fn one_name() {
    for word in ["SUBSCRIBE", "UNSUBSCRIBE"] {
        for (rest, expected) in [
            ("", Err(4)),
            (" ", Err(4)),
            ("  Foo", Err(4)),
            (" Foo ", Err(4)),
            (" Foo Moo", Err(4)),
            (" \"Foo\"Moo", Err(4)),
            (" (Foo)", Err(4)),
            ("(Foo", Err(4)),
            ("]", Err(4)),
            ("\"Foo\"", Err(4)),
            (" a%", Err(4)),
            (" a*", Err(4)),
            (" %", Err(4)),
            (" a{b", Err(4)),
            (" \"Foo", Err(4)),
            (" \"F\\oo\"", Err(4)),
            (" () Foo", Err(4)),
            (" Foo RETURN ()", Err(4)),
            (" x{3}\r\nFoo", Err(4)),
            (" {3}\r\nFoox", Err(4)),
            (" {3}\r\nFoo ", Err(4)),
            (" {9}\r\nFoo", Err(3)),
            (" Foo\r", Err(3)),
            (" Foo", Ok(())),
            (" \"Foo\"", Ok(())),
            (" {3}\r\nFoo", Ok(())),
            (" {003}\r\nFoo", Ok(())),
            (" a]", Ok(())),
            (" NIL", Ok(())),
        ] {
            let command = format!("a {word}{rest}");
            assert_eq!(run(&mut tree(), &command), expected, "{command}");
        }
    }
}

/// The three ways to write a name mean the same name.
#[test]
fn names_as_they_are_written() {
    let empty = store(&[b'.'; 8], &[], 1);
    let cases: [(&str, &[u8]); 7] = [
        ("a", b"a"),
        ("\"a b\"", b"a b"),
        ("\"\\\"\\\\\"", b"\"\\"),
        ("{5}\r\na (b)", b"a (b)"),
        ("{1}\r\n\"", b"\""),
        ("}+]", b"}+]"),
        ("\"{3}x\"", b"{3}x"),
    ];
    for (written, name) in cases {
        let area = [name, &[b'.'; 8][name.len()..]].concat();
        let after = store(&area, &[row(2, 0, name.len() as u8)], 0);
        check_edit(&empty, &format!("a SUBSCRIBE {written}"), &after);
    }
}

/// "A name whose first level is INBOX in any case of letters is first spelled INBOX."
#[test]
fn inbox_is_spelled_first() {
    let spellings = [
        ("inbox", Ok("INBOX")),
        ("Inbox", Ok("INBOX")),
        ("INBOX", Ok("INBOX")),
        ("iNbOx/x", Ok("INBOX/x")),
        ("inbox/inbox", Ok("INBOX/inbox")),
        ("inbox/INBOX/y", Ok("INBOX/INBOX/y")),
        ("inboxx", Ok("inboxx")),
        ("inbo", Ok("inbo")),
        ("x/inbox", Ok("x/inbox")),
        ("inbox-", Ok("inbox-")),
        ("inbox/", Err(14)),
        ("inbox//x", Err(14)),
        ("/inbox", Err(14)),
    ];
    for (written, expected) in spellings {
        let mut one = store(&[b'.'; 20], &[], 1);
        let result = run(&mut one, &format!("a SUBSCRIBE {written}"));
        assert_eq!(result, expected.map(drop), "{written}");
        let name: Vec<String> = rows_of(&one).into_iter().map(|(name, _)| name).collect();
        assert_eq!(name, Vec::from_iter(expected), "{written}");
        assert_eq!(run(&mut one, &format!("a UNSUBSCRIBE {written}")), Ok(()));
        assert_eq!(rows_of(&one), [], "{written}");
    }
    // x/inbox and X/INBOX are two names, and so are inboxx and INBOXX.
    let mut two = store(&[b'.'; 40], &[], 9);
    for name in ["x/inbox", "x/INBOX", "inboxx", "INBOXX", "inbox", "INBOX"] {
        assert_eq!(run(&mut two, &format!("a SUBSCRIBE {name}")), Ok(()));
    }
    let names: Vec<String> = rows_of(&two).into_iter().map(|(name, _)| name).collect();
    assert_eq!(names, ["INBOX", "INBOXX", "inboxx", "x/INBOX", "x/inbox"]);
}
