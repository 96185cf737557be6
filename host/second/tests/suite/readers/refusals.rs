//! 16, at both of its places.

use second::{answer_reading, check_table, collect, Refusal, Table};

use crate::common::{check_from, check_walk_from, rows_pass, FILL};
use crate::stores::{check_numbers, edit_from, tree};

const BAD_LIST: &[u8] = b"\x09";

/// "(above: 16, checked before 1)": for any bytes as command, for NAMESPACE too, and for the walk.
#[test]
fn readers_above_7() {
    let tables = [Table::EMPTY, Table::Packed(b"\0")];
    let lines: [&[u8]; 7] = [
        b"",
        b"\0",
        b"a NAMESPACE\r\n",
        b"a LIST \"\" *\r\n",
        b"+",
        b"a X\r\n",
        b"a SUBSCRIBE x\r\n",
    ];
    for reader in 8..=u8::MAX {
        for table in tables {
            for line in lines {
                let mut out = [FILL; 40];
                let given = answer_reading(reader, table, BAD_LIST, line, &mut out);
                assert_eq!((given, out), (Err(Refusal::Reader), [FILL; 40]), "{reader}");
            }
            for option in [0, 4, 255] {
                let mut lent = [[FILL; 9]; 3];
                let [scratch, found, pending] = &mut lent;
                let given = collect(reader, table, option, scratch, found, pending);
                assert_eq!((given, lent), (Err(Refusal::Reader), [[0; 9]; 3]), "{reader}");
            }
        }
    }
}

/// A lawful reader is refused as reader 0 is: 1 before 6 in a walk.
#[test]
fn lawful_readers() {
    for reader in 0..8 {
        check_from(reader, &[("b", "exists"), ("a", "exists")], &[], &[("a NAMESPACE", Err(1))]);
        let namespaces = Ok(&["* NAMESPACE NIL NIL NIL", "a OK done"][..]);
        check_from(reader, &[], &[], &[("a NAMESPACE", namespaces), ("a X", Err(5))]);
        check_walk_from(reader, &[("a//b", "exists")], 4, [0; 3], Err(1));
        check_walk_from(reader, &[], 4, [0; 3], Err(6));
        check_walk_from(reader, &[], 0, [0; 3], Err(9));
    }
}

/// "edits are allowed to reader 0 only (else 16, just before 14)": after 1, 2, 3, 4 and 5; before 14, 15
/// and 9, and for an edit that would change nothing too.
#[test]
fn edits_of_other_readers() {
    let lines = [
        ("", 4),
        ("+ SUBSCRIBE \"\"", 4),
        ("a SUBSCRIBES \"\"", 5),
        ("a SUBSCRIBE \"\" ", 4),
        ("a SUBSCRIBE a%", 4),
        ("a UNSUBSCRIBE", 4),
        ("a SUBSCRIBE \"\"", 16),
        ("a SUBSCRIBE INBOX/x", 16),
        ("a SUBSCRIBE no-room-for-this-name", 16),
        ("a SUBSCRIBE Foo", 16),
        ("a SUBSCRIBE Foo/Bar", 16),
        ("a UNSUBSCRIBE Moo", 16),
        ("a UNSUBSCRIBE x", 16),
        ("a UNSUBSCRIBE \"\"", 16),
    ];
    for reader in 1..8 {
        for (line, number) in lines {
            assert_eq!(edit_from(reader, &mut tree(), line), Err(number), "{line:?}, {reader}");
        }
        let mut bad = tree();
        bad.records.swap(0, 1);
        assert_eq!(edit_from(reader, &mut bad, "a SUBSCRIBE Foo"), Err(1));
    }
    check_numbers(
        &tree(),
        [
            ("a SUBSCRIBE \"\"", Err(14)),
            ("a SUBSCRIBE no-room-for-this-name", Err(15)),
            ("a UNSUBSCRIBE x", Ok(())),
        ],
    );
}

/// 16 of an edit comes before 9, and a bad namespace list before 16.
#[test]
fn between_2_and_9() {
    let tree = tree();
    let table = Table::Records(tree.as_records());
    let line = b"a UNSUBSCRIBE x\r\n";
    let refusal = |reader, list, room| {
        answer_reading(reader, table, list, line, &mut vec![0; room]).map_err(Refusal::number)
    };
    assert_eq!(refusal(5, b"".as_slice(), 0), Err(16));
    assert_eq!(refusal(0, b"", 0), Err(9));
    assert_eq!(refusal(5, BAD_LIST, 0), Err(2));
    assert_eq!(refusal(8, BAD_LIST, 0), Err(16));
}

/// "Refusal 1 … look[s] at all rows": what is hidden has to ascend, and no row lies below a hidden one
/// with no inferiors.
#[test]
fn check_1_looks_at_hidden_rows() {
    assert!(rows_pass(&[("a", "exists to:"), ("b", "exists to:")]));
    assert!(!rows_pass(&[("b", "exists to:"), ("a", "exists")]));
    assert!(!rows_pass(&[("a", "exists to:"), ("a", "exists to:1")]));
    assert!(!rows_pass(&[("a", "exists noinferiors to:"), ("a/b", "exists")]));
    assert!(!rows_pass(&[("a", "exists noinferiors"), ("a/b", "exists to:")]));
    assert!(!rows_pass(&[("a", "0000 to:")]));
    assert!(!rows_pass(&[("inbox", "exists to:")]));
    assert!(!check_table(Table::Packed(b"\0\x01\0\x02a")));
    let hidden_and_wrong = [("a", "exists"), ("b%", "exists to:7")];
    for reader in 0..8 {
        check_from(reader, &hidden_and_wrong, &[], &[("a LIST \"\" *", Err(1))]);
        check_walk_from(reader, &hidden_and_wrong, 0, [0; 3], Err(1));
    }
}
