//! Refusals 14 and 15, and the order of all of them.

use second::rows::MAX_ROWS;
use second::{answer, answer_reading, collect, Refusal, Store, Table};

use crate::common::FILL;
use crate::stores::{check_numbers, full, row, run, run_in, store, tree, OK};

/// "with an unlawful name, it is refused with 14": length, bytes and levels.
#[test]
fn unlawful_names() {
    let empty = store(&[b'.'; 400], &[], 3);
    let literal = |name: &str| format!("{{{}}}\r\n{name}", name.len());
    let levels = |count: usize| vec!["l"; count].join("/");
    let names = [
        ("", Err(14)),
        ("a%", Err(14)),
        ("*", Err(14)),
        ("/", Err(14)),
        ("/a", Err(14)),
        ("a/", Err(14)),
        ("a//b", Err(14)),
        ("\u{1}", Err(14)),
        ("a\u{1F}", Err(14)),
        ("a\u{7F}", Err(14)),
        ("a\u{80}", Err(14)),
        ("a\r\n", Err(14)),
        (" ", Ok(())),
        ("~", Ok(())),
        ("a b", Ok(())),
        (&"n".repeat(200), Ok(())),
        (&"n".repeat(201), Err(14)),
        (&"n".repeat(255), Err(14)),
        (&"n".repeat(256), Err(14)),
        (&"n".repeat(1_024), Err(14)),
        (&levels(16), Ok(())),
        (&levels(17), Err(14)),
    ];
    for (name, expected) in names {
        let command = format!("a SUBSCRIBE {}", literal(name));
        assert_eq!(run(&mut empty.clone(), &command), expected, "{name:?}");
    }
    check_numbers(
        &empty,
        [
            ("a SUBSCRIBE \"\"", Err(14)),
            ("a SUBSCRIBE {0}\r\n", Err(14)),
            ("a SUBSCRIBE \"a%\"", Err(14)),
            ("a SUBSCRIBE a%", Err(4)),
            (&format!("a SUBSCRIBE {}", "n".repeat(300)), Err(14)),
            (&format!("a SUBSCRIBE \"{}\"", "\\\\".repeat(200)), Ok(())),
            (&format!("a SUBSCRIBE \"{}\"", "\\\\".repeat(201)), Err(14)),
        ],
    );
}

/// "below a row with no inferiors", at any depth; Foo-x lies beside Foo, and what is above is no
/// matter.
#[test]
fn names_below_no_inferiors() {
    let before = store(b"a/bZ.................", &[row(1, 3, 1), row(0x11, 0, 3)], 2);
    check_numbers(
        &before,
        [
            ("a SUBSCRIBE a/b", Ok(())),
            ("a SUBSCRIBE a/b/c", Err(14)),
            ("a SUBSCRIBE a/b/c/d/e", Err(14)),
            ("a SUBSCRIBE a", Ok(())),
            ("a SUBSCRIBE a/bc", Ok(())),
            ("a SUBSCRIBE a/b-c/d", Ok(())),
            ("a SUBSCRIBE A/b/c", Ok(())),
            ("a SUBSCRIBE Z/b", Ok(())),
            ("a UNSUBSCRIBE a/b/c", Ok(())),
        ],
    );
    check_numbers(
        &tree(),
        [
            ("a SUBSCRIBE inbox/x", Err(14)),
            ("a SUBSCRIBE Inbox/x/y", Err(14)),
            ("a SUBSCRIBE INBOX", Ok(())),
        ],
    );
}

/// "an insertion with 512 rows, no spare record or no free run of name bytes long enough, with 15",
/// and nothing but an insertion.
#[test]
fn no_room_for_a_row() {
    let mut most = full(MAX_ROWS, 4, 9);
    most.area.extend_from_slice(&[b'.'; 9]);
    let mut no_spare = full(3, 4, 0);
    no_spare.area.extend_from_slice(&[b'.'; 9]);
    for full in [most, no_spare, full(3, 4, 2)] {
        check_numbers(
            &full,
            [
                ("a SUBSCRIBE x", Err(15)),
                ("a SUBSCRIBE 0001/x", Err(15)),
                ("a SUBSCRIBE inbox", Err(15)),
                ("a SUBSCRIBE 0001", Ok(())),
                ("a UNSUBSCRIBE 0001", Ok(())),
                ("a UNSUBSCRIBE x", Ok(())),
                ("a LIST \"\" x", Ok(())),
            ],
        );
    }
}

/// 511 rows take one more, and what a removal frees is room again.
#[test]
fn room_that_comes_back() {
    let mut store = full(MAX_ROWS - 1, 4, 9);
    store.area.extend_from_slice(&[b'.'; 2]);
    assert_eq!(run(&mut store, "a SUBSCRIBE xy"), Ok(()));
    assert_eq!(store.count, MAX_ROWS);
    assert_eq!(run(&mut store, "a SUBSCRIBE z"), Err(15));
    assert_eq!(run(&mut store, "a UNSUBSCRIBE xy"), Ok(()));
    assert_eq!(run(&mut store, "a SUBSCRIBE xyz"), Err(15));
    assert_eq!(run(&mut store, "a SUBSCRIBE z"), Ok(()));
    assert_eq!((store.count, store.records[MAX_ROWS - 1]), (MAX_ROWS, row(2, 2_044, 1)));
    assert!(store.area.ends_with(b"z\0"));
}

/// "The order is 14, 15, then 9, all before any change."
#[test]
fn order_of_14_15_and_9() {
    let full = full(3, 4, 0);
    for (command, number) in [
        ("a SUBSCRIBE \"\"", 14),
        ("a SUBSCRIBE a//b", 14),
        ("a SUBSCRIBE x", 15),
        ("a SUBSCRIBE 0001", 9),
        ("a UNSUBSCRIBE 0001", 9),
        ("a UNSUBSCRIBE x", 9),
        ("a UNSUBSCRIBE \"\"", 9),
    ] {
        for room in [0, OK.len() - 1] {
            let mut store = full.clone();
            let given = run_in(&mut store, command, room);
            assert_eq!(given, (Err(number), vec![FILL; room]), "{command}");
            assert_eq!(store, full, "{command}");
        }
    }
    let mut childless = store(b"a", &[row(0x11, 0, 1)], 0);
    assert_eq!(run_in(&mut childless, "a SUBSCRIBE a/b", 0).0, Err(14));
}

/// 9: the OK line is longer than the buffer, and nothing changes; equal length fits.
#[test]
fn short_buffers() {
    let commands =
        ["a SUBSCRIBE Foo", "a SUBSCRIBE New", "a UNSUBSCRIBE Moo", "a UNSUBSCRIBE Foo/Bar"];
    for command in commands {
        for room in 0..OK.len() {
            let mut store = tree();
            assert_eq!(run_in(&mut store, command, room), (Err(9), vec![FILL; room]));
            assert_eq!(store, tree(), "{command}");
        }
        let mut store = tree();
        assert_eq!(run_in(&mut store, command, OK.len()), (Ok(OK.len()), OK.to_vec()));
        assert_ne!(store, tree(), "{command}");
    }
    let long = "t".repeat(1_000);
    let mut one = tree();
    assert_eq!(run_in(&mut one, &format!("{long} SUBSCRIBE Foo"), 1_009).0, Err(9));
    assert_eq!(run_in(&mut one, &format!("{long} SUBSCRIBE Foo"), 1_010).0, Ok(1_010));
}

/// 1 and 2 come before the line, 3 to 5 before the name: a bad namespace list refuses an edit too.
#[test]
fn order_of_the_checks() {
    let run = |store: &mut Store, list: &[u8], line: &str| {
        let before = store.clone();
        let mut out = [FILL; 40];
        let result = store.lend(|lent| answer(0, lent, list, line.as_bytes(), &mut out));
        assert_eq!((&*store, out), (&before, [FILL; 40]), "{line}");
        result.map_err(Refusal::number).expect_err("a refusal")
    };
    let mut bad = store(b"ab", &[row(1, 1, 1), row(1, 0, 1)], 1);
    for line in ["a SUBSCRIBE a\r\n", "a SUBSCRIBE \"\"\r\n", "a UNSUBSCRIBE x\r\n", "", "a X\r\n"]
    {
        assert_eq!(run(&mut bad, b"\x09", line), 1);
        assert_eq!(run(&mut tree(), b"\x09", line), 2);
    }
    for (line, number) in [
        ("a SUBSCRIBE \"\"", 3),
        ("+ SUBSCRIBE \"\"\r\n", 4),
        ("a SUBSCRIBEX \"\"\r\n", 5),
        ("a SUBSCRIBE \"\" \r\n", 4),
        ("a SUBSCRIBE \"\"\r\n", 14),
    ] {
        assert_eq!(run(&mut tree(), b"", line), number, "{line}");
    }
}

/// "a count above the records lent is 1", and so is one above 512, for every command and the walk.
#[test]
fn counts() {
    let mut above = tree();
    above.count = above.records.len() + 1;
    let mut far_above = Store { count: usize::MAX, ..tree() };
    let mut most = full(MAX_ROWS + 1, 4, 3);
    for store in [&mut above, &mut far_above, &mut most] {
        for command in [
            "a SUBSCRIBE Foo",
            "a UNSUBSCRIBE x",
            "a SUBSCRIBE \"\"",
            "a LIST \"\" *",
            "a NAMESPACE",
        ] {
            assert_eq!(run(store, command), Err(1), "{command}");
        }
        let mut lent = [[FILL; 9]; 3];
        let [scratch, found, pending] = &mut lent;
        let walked = collect(0, Table::Records(store.as_records()), 0, scratch, found, pending);
        assert_eq!(walked, Err(Refusal::Table));
    }
    most.count = MAX_ROWS;
    assert_eq!(run(&mut most, "a SUBSCRIBE 0001"), Ok(()));
}

/// A table that is lent for reading is judged alike, and a packed one has no spare record.
#[test]
fn edits_of_tables_lent_for_reading() {
    let read = |table, line: &str| {
        answer_reading(0, table, b"", line.as_bytes(), &mut [0; 20]).map_err(Refusal::number)
    };
    let (tree, packed) = (tree(), b"\0\x01\xFF\x01a\0\x02\xFF\x01b");
    let records = Table::Records(tree.as_records());
    for (table, line, expected) in [
        (records, "a SUBSCRIBE Foo\r\n", Ok(OK.len())),
        (records, "a SUBSCRIBE New\r\n", Ok(OK.len())),
        (records, "a SUBSCRIBE INBOX/x\r\n", Err(14)),
        (Table::Packed(packed), "a SUBSCRIBE a\r\n", Ok(OK.len())),
        (Table::Packed(packed), "a UNSUBSCRIBE b\r\n", Ok(OK.len())),
        (Table::Packed(packed), "a SUBSCRIBE c\r\n", Err(15)),
        (Table::Packed(packed), "a SUBSCRIBE \"\"\r\n", Err(14)),
    ] {
        assert_eq!(read(table, line), expected, "{line}");
    }
}
