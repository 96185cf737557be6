//! W3 (document 02), sentence by sentence: special uses by tree.

use second::{answer_reading, collect, Table};

use crate::common::{check, check_dialogue, check_walk, table_of, Rows, Walked};

const ROOM: usize = 4_096;

/// Uses on three levels, on a remote mailbox and on parents. Only Work/Sent is subscribed and has
/// a use; Far has a use and stands above a local one; Work and Far/Deep have no row.
const TREE: &Rows = &[
    ("Archive", "exists archive"),
    ("Archive/Drafts", "exists drafts"),
    ("Archive/Drafts/All", "exists all flagged"),
    ("Far", "exists remote junk"),
    ("Far/Deep/Trash", "exists trash"),
    ("Far/Junk", "exists remote junk"),
    ("Gone", "subscribed"),
    ("Plain", "exists"),
    ("Work/List", "exists subscribed"),
    ("Work/Sent", "exists subscribed sent"),
];

/// "So 7 is given exactly if neither SUBSCRIBED nor SPECIAL-USE stands beside it", in every order
/// of two and whatever else is selected.
#[test]
fn seven_exactly_if_neither_stands_beside() {
    let options = ["SUBSCRIBED", "SPECIAL-USE", "REMOTE", "RECURSIVEMATCH"];
    for chosen in 0..1 << options.len() {
        let is_chosen = |number: &usize| chosen & 1 << number != 0;
        let mut selection: Vec<&str> =
            (0..options.len()).filter(is_chosen).map(|number| options[number]).collect();
        let has = |option| selection.contains(&option);
        let is_seven = has("RECURSIVEMATCH") && !has("SUBSCRIBED") && !has("SPECIAL-USE");
        let expected: Result<&[&str], u8> = if is_seven { Err(7) } else { Ok(&["a OK done"]) };
        for _ in 0..2 {
            let command = format!("a LIST ({}) \"\" *", selection.join(" "));
            check(&[], &[(&command, expected)]);
            selection.reverse();
        }
    }
}

/// What is returned is not beside RECURSIVEMATCH; 6 comes before 7, and 7 before 8.
#[test]
fn what_is_not_beside() {
    check(
        TREE,
        &[
            (r#"a LIST (RECURSIVEMATCH) "" % RETURN (SPECIAL-USE)"#, Err(7)),
            (r#"a LIST (RECURSIVEMATCH REMOTE) "" % RETURN (SUBSCRIBED SPECIAL-USE)"#, Err(7)),
            (r#"a LIST (RECURSIVEMATCH SPECIAL) "" %"#, Err(6)),
            (r#"a LIST (RECURSIVEMATCH SPECIAL-USE (x)) "" %"#, Err(6)),
            (r#"a LIST (RECURSIVEMATCH) "" (1 2 3 4 5 6 7 8 9)"#, Err(7)),
            (r#"a LIST (RECURSIVEMATCH SPECIAL-USE) "" (1 2 3 4 5 6 7 8 9)"#, Err(8)),
        ],
    );
}

/// "CHILDINFO names the criteria selected": a client that asks `(RECURSIVEMATCH SPECIAL-USE)`.
#[test]
fn childinfo_names_special_use_alone() {
    check_dialogue(
        TREE,
        r#"
        C: a LIST (RECURSIVEMATCH SPECIAL-USE) "" "%"
        S: * LIST (\Archive) "/" "Archive" ("CHILDINFO" ("SPECIAL-USE"))
        S: * LIST (\Remote \Junk) "/" "Far" ("CHILDINFO" ("SPECIAL-USE"))
        S: * LIST (\NonExistent) "/" "Work" ("CHILDINFO" ("SPECIAL-USE"))
        S: a OK done
        C: b LIST (special-use recursivematch) "" "*"
        S: * LIST (\Archive) "/" "Archive" ("CHILDINFO" ("SPECIAL-USE"))
        S: * LIST (\Drafts) "/" "Archive/Drafts" ("CHILDINFO" ("SPECIAL-USE"))
        S: * LIST (\All \Flagged) "/" "Archive/Drafts/All"
        S: * LIST (\Trash) "/" "Far/Deep/Trash"
        S: * LIST (\Sent) "/" "Work/Sent"
        S: b OK done
        C: c LIST (RECURSIVEMATCH SPECIAL-USE) "" "Work/%" RETURN (SUBSCRIBED)
        S: * LIST (\Subscribed \Sent) "/" "Work/Sent"
        S: c OK done
        "#,
    );
}

/// ""SUBSCRIBED" before "SPECIAL-USE"", whatever the order of the options. A name is listed for
/// what meets both; REMOTE is never named.
#[test]
fn childinfo_names_both_in_order() {
    check_dialogue(
        TREE,
        r#"
        C: a LIST (SUBSCRIBED RECURSIVEMATCH SPECIAL-USE) "" "%"
        S: * LIST (\NonExistent) "/" "Work" ("CHILDINFO" ("SUBSCRIBED" "SPECIAL-USE"))
        S: a OK done
        C: b LIST (SPECIAL-USE REMOTE RECURSIVEMATCH SUBSCRIBED) "" "%"
        S: * LIST (\NonExistent) "/" "Work" ("CHILDINFO" ("SUBSCRIBED" "SPECIAL-USE"))
        S: b OK done
        C: c LIST (SUBSCRIBED RECURSIVEMATCH REMOTE) "" "%"
        S: * LIST (\Subscribed \NonExistent) "/" "Gone"
        S: * LIST (\NonExistent) "/" "Work" ("CHILDINFO" ("SUBSCRIBED"))
        S: c OK done
        C: d LIST (REMOTE SPECIAL-USE RECURSIVEMATCH) "" "Far%"
        S: * LIST (\Remote \Junk) "/" "Far" ("CHILDINFO" ("SPECIAL-USE"))
        S: d OK done
        "#,
    );
}

/// A remote use below is no reason for CHILDINFO unless REMOTE is selected.
#[test]
fn remote_uses_below() {
    check_dialogue(
        &[("a/b", "exists remote sent"), ("c/d", "exists sent")],
        r#"
        C: a LIST (RECURSIVEMATCH SPECIAL-USE) "" "%"
        S: * LIST (\NonExistent) "/" "c" ("CHILDINFO" ("SPECIAL-USE"))
        S: a OK done
        C: b LIST (RECURSIVEMATCH SPECIAL-USE REMOTE) "" "%"
        S: * LIST (\NonExistent) "/" "a" ("CHILDINFO" ("SPECIAL-USE"))
        S: * LIST (\NonExistent) "/" "c" ("CHILDINFO" ("SPECIAL-USE"))
        S: b OK done
        "#,
    );
}

/// "Option byte 4 .. legal only with 2 (else 6; a byte above 7 is 6)"; 1 comes before 6.
#[test]
fn every_option_byte() {
    let bad_rows = [("a//b", "exists")];
    for option in 0..=255 {
        let is_lawful = [0, 1, 2, 3, 6, 7].contains(&option);
        let expected: Result<Walked, u8> = if is_lawful { Ok((1, &[], &[])) } else { Err(6) };
        check_walk(&[], option, [ROOM; 3], expected);
        check_walk(&bad_rows, option, [ROOM; 3], Err(1));
    }
}

/// "A find then is a line with a use, under the same rule for remote": Far stands there for
/// CHILDINFO alone unless REMOTE was asked.
#[test]
fn finds_without_subscribed() {
    let with_sent = (2, ["Work/Sent"].as_slice(), ["Work"].as_slice());
    check_walk(TREE, 2, [ROOM; 3], Ok(with_sent));
    check_walk(TREE, 3, [ROOM; 3], Ok(with_sent));
    let local = ["Archive", "Archive/Drafts", "Work/Sent", "Archive/Drafts/All", "Far/Deep/Trash"];
    let pending = ["Archive", "Far", "Work", "Archive/Drafts", "Far/Deep"];
    check_walk(TREE, 6, [ROOM; 3], Ok((6, &local, &pending)));
    let all = [
        "Archive",
        "Far",
        "Archive/Drafts",
        "Far/Junk",
        "Work/Sent",
        "Archive/Drafts/All",
        "Far/Deep/Trash",
    ];
    check_walk(TREE, 7, [ROOM; 3], Ok((6, &all, &pending)));
}

/// "With byte 4 \Subscribed is neither asked nor shown": the commands are document 01's without
/// SUBSCRIBED, so scratch of the longest of their answers is enough, and a byte less is not.
#[test]
fn scratch_of_each_walk() {
    let walks = [
        (2, "SUBSCRIBED RECURSIVEMATCH SPECIAL-USE", ["", "Work/"].as_slice()),
        (3, "SUBSCRIBED RECURSIVEMATCH SPECIAL-USE REMOTE", &["", "Work/"]),
        (6, "RECURSIVEMATCH SPECIAL-USE", &["", "Archive/", "Far/", "Work/", "Far/Deep/"]),
        (7, "RECURSIVEMATCH SPECIAL-USE REMOTE", &["", "Archive/", "Far/", "Work/", "Far/Deep/"]),
    ];
    for (option, selection, references) in walks {
        let length = |reference: &&str| {
            let line = format!("w LIST ({selection}) \"{reference}\" \"%\"\r\n");
            answer_reading(0, Table::Packed(&table_of(TREE)), &[], line.as_bytes(), &mut [0; ROOM])
                .expect("an answer")
        };
        let longest = references.iter().map(length).max().expect("a command");
        let walk = |room| {
            let [mut scratch, mut found, mut pending] =
                [room, ROOM, ROOM].map(|room| vec![0; room]);
            let table = table_of(TREE);
            collect(0, Table::Packed(&table), option, &mut scratch, &mut found, &mut pending)
        };
        assert!(walk(longest).is_ok(), "{option}");
        assert_eq!(walk(longest - 1), Err(second::Refusal::AnswerRoom), "{option}");
    }
}

/// Found and pending at both sides for walks with bytes 2, 3, 6 and 7; "by line 10 before 11".
#[test]
fn rooms_of_each_walk() {
    let rows = [("a", "exists subscribed sent"), ("a/b", "exists subscribed sent")];
    for option in [2, 3, 6, 7] {
        check_walk(&rows, option, [ROOM, 6, 2], Ok((2, &["a", "a/b"], &["a"])));
        check_walk(&rows, option, [ROOM, 5, 2], Err(10));
        check_walk(&rows, option, [ROOM, 6, 1], Err(11));
        check_walk(&rows, option, [ROOM, 1, 1], Err(10));
        check_walk(&rows, option, [0; 3], Err(9));
    }
}
