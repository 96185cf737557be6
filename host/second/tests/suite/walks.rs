//! The collector's walk: its order, its finds, its buffers and its refusals.

use std::collections::BTreeSet;

use second::collector::{own_commands, WALK_REFUSALS};
use second::name::{is_lawful, MAX_LEVELS, MAX_NAME};
use second::{answer_reading, check_table, collect, Refusal, Table};

use crate::common::{check_dialogue, check_walk, table_of, Rows};

const ROOM: usize = 4_096;
/// The option bytes of walks that are not refused with 6.
const LAWFUL: [u8; 6] = [0, 1, 2, 3, 6, 7];
/// Levels before bytes: Foo-x stands before the names below Foo.
#[test]
fn order_of_the_walk() {
    let rows = [
        ("Foo-x", "subscribed"),
        ("Foo/Bar/deep", "exists subscribed"),
        ("Foo/Baz", "exists subscribed"),
        ("Foo/Baz/x", "exists subscribed"),
        ("INBOX", "exists"),
        ("Zoo", "exists subscribed"),
    ];
    let found = ["Foo-x", "Zoo", "Foo/Baz", "Foo/Bar/deep", "Foo/Baz/x"];
    check_walk(&rows, 0, [ROOM; 3], Ok((4, &found, &["Foo", "Foo/Bar", "Foo/Baz"])));
}

/// A remote parent with `\Subscribed` is no find unless REMOTE was asked; with SPECIAL-USE a
/// find has a use.
#[test]
fn finds_by_option() {
    let rows = [
        ("far", "exists subscribed remote"),
        ("far/near", "exists subscribed"),
        ("far/sent", "exists subscribed sent"),
        ("far/trash", "exists subscribed remote trash"),
    ];
    let near_and_sent = ["far/near", "far/sent"];
    let all = ["far", "far/near", "far/sent", "far/trash"];
    check_walk(&rows, 0, [ROOM; 3], Ok((2, &near_and_sent, &["far"])));
    check_walk(&rows, 1, [ROOM; 3], Ok((2, &all, &["far"])));
    check_walk(&rows, 2, [ROOM; 3], Ok((2, &["far/sent"], &["far"])));
    check_walk(&rows, 3, [ROOM; 3], Ok((2, &["far/sent", "far/trash"], &["far"])));
}

#[test]
fn names_with_quotes_and_levels() {
    let rows = [("a\"\\b/c d/\"", "subscribed"), ("x/inbox/INBOX", "exists subscribed")];
    let found = ["a\"\\b/c d/\"", "x/inbox/INBOX"];
    let pending = ["a\"\\b", "x", "a\"\\b/c d", "x/inbox"];
    check_walk(&rows, 0, [ROOM; 3], Ok((5, &found, &pending)));
}

#[test]
fn refusals_before_the_walk() {
    let bad_rows = [("a//b", "exists")];
    check_walk(&bad_rows, 0, [ROOM; 3], Err(1));
    check_walk(&bad_rows, 4, [ROOM; 3], Err(1));
    check_walk(&[], 4, [ROOM; 3], Err(6));
    check_walk(&[], 255, [0; 3], Err(6));
}

const NESTED: &Rows = &[("a/b/c", "exists subscribed"), ("a/b/d", "exists subscribed")];

/// Found needs both names, pending both ancestors, each with a length byte.
#[test]
fn exact_rooms() {
    let found = ["a/b/c", "a/b/d"];
    let pending = ["a", "a/b"];
    let first = answer_length(r#"w LIST (SUBSCRIBED RECURSIVEMATCH) "" "%""#);
    let second = answer_length(r#"w LIST (SUBSCRIBED RECURSIVEMATCH) "a/" "%""#);
    let third = answer_length(r#"w LIST (SUBSCRIBED RECURSIVEMATCH) "a/b/" "%""#);
    let scratch = first.max(second).max(third);
    check_walk(NESTED, 0, [scratch, 12, 6], Ok((3, &found, &pending)));
    check_walk(NESTED, 0, [scratch, 11, 6], Err(10));
    check_walk(NESTED, 0, [scratch, 12, 5], Err(11));
    check_walk(NESTED, 0, [scratch, 0, 1], Err(11));
    check_walk(NESTED, 0, [scratch - 1, 12, 6], Err(9));
    check_walk(NESTED, 0, [first - 1, 0, 0], Err(9));
    check_walk(NESTED, 0, [0; 3], Err(9));
}

/// A line that is both a find and pending is refused as a find.
#[test]
fn ten_before_eleven() {
    let rows = [("a", "exists subscribed"), ("a/b", "exists subscribed")];
    check_walk(&rows, 0, [ROOM, 1, 1], Err(10));
    check_walk(&rows, 0, [ROOM, 2, 1], Err(11));
    check_walk(&rows, 0, [ROOM, 2, 2], Err(10));
    check_walk(&rows, 0, [ROOM, 6, 2], Ok((2, &["a", "a/b"], &["a"])));
}

/// The commands of the walk are those of document 01, so its first answer is theirs.
#[test]
fn the_first_answer_of_a_walk() {
    check_dialogue(
        NESTED,
        r#"
        C: w LIST (SUBSCRIBED RECURSIVEMATCH SPECIAL-USE REMOTE) "" "%"
        S: w OK done
        "#,
    );
    check_walk(NESTED, 3, ["w OK done\r\n".len(), 0, 0], Ok((1, &[], &[])));
    check_walk(NESTED, 3, ["w OK done\r\n".len() - 1, 0, 0], Err(9));
}

fn answer_length(command: &str) -> usize {
    let line = format!("{command}\r\n");
    answer_reading(0, Table::Packed(&table_of(NESTED)), &[], line.as_bytes(), &mut [0; ROOM])
        .expect("an answer")
}

/// "It sends tag `w`, selection in the order SUBSCRIBED RECURSIVEMATCH SPECIAL-USE REMOTE, reference "" first
/// and later each pending name and "/", pattern "%"."
#[test]
fn its_own_commands() {
    let texts = |option| {
        let commands = own_commands(option, b"\x01a\x05a/\"\\b\0\0")?;
        Some(commands.into_iter().map(|line| String::from_utf8(line).expect("text")).collect())
    };
    let lines = |selection: &str| -> Option<Vec<String>> {
        let line = |reference| format!("w LIST ({selection}) \"{reference}\" \"%\"\r\n");
        Some(["", "a/", r#"a/\"\\b/"#].map(line).to_vec())
    };
    assert_eq!(texts(0), lines("SUBSCRIBED RECURSIVEMATCH"));
    assert_eq!(texts(1), lines("SUBSCRIBED RECURSIVEMATCH REMOTE"));
    assert_eq!(texts(2), lines("SUBSCRIBED RECURSIVEMATCH SPECIAL-USE"));
    assert_eq!(texts(3), lines("SUBSCRIBED RECURSIVEMATCH SPECIAL-USE REMOTE"));
    assert_eq!(texts(6), lines("RECURSIVEMATCH SPECIAL-USE"));
    assert_eq!(texts(7), lines("RECURSIVEMATCH SPECIAL-USE REMOTE"));
    for option in (0..=u8::MAX).filter(|option| !LAWFUL.contains(option)) {
        assert_eq!(own_commands(option, b""), None);
    }
}

/// The longest names, of every byte that a name may hold, in two levels and in sixteen.
fn longest_names() -> Vec<Vec<u8>> {
    let mut names = Vec::new();
    for byte in b' '..=b'~' {
        names.push([vec![byte; MAX_NAME - 2].as_slice(), b"/x"].concat());
        let mut name = [vec![byte; 11].as_slice(), b"/"].concat().repeat(MAX_LEVELS);
        name.resize(MAX_NAME - 9, byte);
        names.push([name.as_slice(), &[byte; 9]].concat());
    }
    names.retain(|name| is_lawful(name));
    names
}

/// A row with every flag that makes a find of it, by any option byte that asks for remote names.
fn found_row(name: &[u8]) -> Vec<u8> {
    [&[0x20, 0x07, 0xFF, name.len() as u8], name].concat()
}

/// "We believe that the collector never passes on 3 to 8 from one of its own commands." (document 02, W12)
#[test]
fn own_commands_are_refused_for_room_alone() {
    let (mut longest, names) = (0, longest_names());
    assert_eq!(names.len(), 184);
    for name in names {
        let bytes = found_row(&name);
        let table = Table::Packed(&bytes);
        assert!(check_table(table));
        for option in [1, 3, 7] {
            let [mut scratch, mut found, mut pending] = [(); 3].map(|()| [0; ROOM]);
            let walked = collect(0, table, option, &mut scratch, &mut found, &mut pending);
            let (count, length) = walked.expect("a walk");
            assert_eq!(found[..length], [&[name.len() as u8], name.as_slice()].concat());
            let commands = own_commands(option, &pending).expect("a lawful byte");
            assert_eq!(commands.len(), count);
            for line in commands {
                longest = longest.max(line.len());
                let mut out = [0; ROOM];
                let length = answer_reading(0, table, b"", &line, &mut out).expect("an answer");
                for room in [0, length - 1] {
                    let refused = answer_reading(0, table, b"", &line, &mut out[..room]);
                    assert_eq!(refused, Err(Refusal::AnswerRoom));
                }
            }
        }
    }
    // 198 bytes that are escaped, and "/".
    let around = r#"w LIST (SUBSCRIBED RECURSIVEMATCH SPECIAL-USE REMOTE) "" "%""#.len() + 2;
    assert_eq!(longest, around + 2 * (MAX_NAME - 2) + 1);
}

/// Readers, option bytes, tables that pass or not, and buffers of every kind: no number but the six is given,
/// and each of them is.
#[test]
fn six_numbers_and_no_other() {
    let longest = longest_names().into_iter().rev().map(|name| found_row(&name));
    let bad = [vec![0], b"\0\x01\xFF\x04a//b".to_vec()];
    let good =
        [Vec::new(), table_of(NESTED), table_of(&[("a", "exists subscribed"), ("a/b", "0003")])];
    let mut given = BTreeSet::new();
    for table in bad.into_iter().chain(good).chain(longest.take(4)) {
        for option in 0..=u8::MAX {
            for reader in [0, 7, 8, 255] {
                for room in [0, 2, 11, 100, 500, ROOM] {
                    let sizes = [[room, 0, 0], [ROOM, room, 1], [ROOM, ROOM, room], [room; 3]];
                    for sizes in sizes {
                        let [mut scratch, mut found, mut pending] = sizes.map(|size| vec![1; size]);
                        let table = Table::Packed(&table);
                        let lent = (&mut scratch, &mut found, &mut pending);
                        let walked = collect(reader, table, option, lent.0, lent.1, lent.2);
                        given.extend(walked.err());
                    }
                }
            }
        }
    }
    assert_eq!(given, BTreeSet::from(WALK_REFUSALS));
    let numbers = given.into_iter().map(Refusal::number);
    assert_eq!(numbers.collect::<Vec<u8>>(), [1, 6, 9, 10, 11, 16]);
}
