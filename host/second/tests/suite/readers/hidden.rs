//! What a reader sees: "A row hidden from the reader counts as absent in candidates, criteria, children
//! and CHILDINFO."

use second::packed::ROW_HEAD;
use second::{answer_reading, collect, Table};

use crate::common::{check_from, check_walk_from, table_of, Rows, ALL};

const ROOM: usize = 2_000;

/// A row is listed, and found by the walk, exactly if the bit of the reader is set.
#[test]
fn every_set_and_every_reader() {
    let mut table = table_of(&[("a", "exists subscribed")]);
    for bits in 0..=ALL {
        table[ROW_HEAD - 2] = bits;
        for reader in 0..8 {
            let is_seen = bits >> reader & 1 == 1;
            let mut out = [0; ROOM];
            for line in ["x LIST \"\" *\r\n", "x LSUB \"\" *\r\n"] {
                let packed = Table::Packed(&table);
                let length = answer_reading(reader, packed, b"", line.as_bytes(), &mut out);
                let length = length.expect("an answer");
                let is_listed = out[..length] != *b"x OK done\r\n";
                assert_eq!(is_listed, is_seen, "{bits:02X}, reader {reader}");
            }
            let (mut scratch, mut found) = ([0; ROOM], [0; 2]);
            let packed = Table::Packed(&table);
            let walked = collect(reader, packed, 0, &mut scratch, &mut found, &mut []);
            assert_eq!(walked, Ok((1, if is_seen { 2 } else { 0 })), "{bits:02X}, {reader}");
        }
    }
}

/// Customers and what lies in it, of which reader 3 sees one mailbox far below; a hidden one beside it
/// that is subscribed and has a use; and a remote one.
const TREE: &Rows = &[
    ("Customers", "exists subscribed marked to:0"),
    ("Customers/ABC", "exists noselect to:07"),
    ("Customers/ABC/Letters", "exists subscribed to:03"),
    ("Customers/DEF", "exists subscribed sent to:0"),
    ("Far", "exists remote to:3"),
    ("Far/Near", "exists to:0"),
    ("INBOX", "exists noinferiors"),
    ("Old", "subscribed to:0"),
];

const OK: &str = "a OK done";

/// An existing parent that is hidden is an implied name: it does not exist and has no flag.
#[test]
fn hidden_parents() {
    let customers = r#"* LIST (\NonExistent \HasChildren) "/" "Customers""#;
    let letters = r#"* LIST () "/" "Customers/ABC/Letters""#;
    let abc = r#"* LIST (\NonExistent \HasChildren) "/" "Customers/ABC""#;
    let inbox = r#"* LIST (\NoInferiors) "/" "INBOX""#;
    check_from(
        3,
        TREE,
        &[],
        &[
            ("a LIST \"\" %", Ok(&[customers, inbox, OK])),
            ("a LIST \"\" *", Ok(&[letters, inbox, OK])),
            ("a LIST \"\" Customers", Ok(&[OK])),
            ("a LIST \"\" Customers/%", Ok(&[abc, OK])),
            ("a LIST \"\" Old", Ok(&[OK])),
        ],
    );
    let parent = r#"* LIST (\Marked) "/" "Customers""#;
    check_from(0, TREE, &[], &[("a LIST \"\" Customers", Ok(&[parent, OK]))]);
    // Reader 7 sees the parent of what it does not see.
    let abc = r#"* LIST (\Noselect \HasNoChildren) "/" "Customers/ABC""#;
    check_from(7, TREE, &[], &[("a LIST \"\" Customers/* RETURN (CHILDREN)", Ok(&[abc, OK]))]);
}

/// Criteria, CHILDINFO and `\HasChildren` are of the rows that the reader sees.
#[test]
fn criteria_and_children() {
    let childinfo = |name: &str, criteria: &str| {
        format!("* LIST (\\NonExistent) \"/\" \"{name}\" (\"CHILDINFO\" ({criteria}))")
    };
    let customers = childinfo("Customers", "\"SUBSCRIBED\"");
    let subscribed = "a LIST (SUBSCRIBED RECURSIVEMATCH) \"\" %";
    let special = "a LIST (RECURSIVEMATCH SPECIAL-USE) \"\" %";
    check_from(3, TREE, &[], &[(subscribed, Ok(&[&customers, OK])), (special, Ok(&[OK]))]);
    check_from(7, TREE, &[], &[(subscribed, Ok(&[OK])), (special, Ok(&[OK]))]);
    let customers = r#"* LIST (\Marked) "/" "Customers" ("CHILDINFO" ("SPECIAL-USE"))"#;
    check_from(0, TREE, &[], &[(special, Ok(&[customers, OK]))]);
    let far = r#"* LIST (\Remote \HasNoChildren) "/" "Far""#;
    let command = "a LIST (REMOTE) \"\" Far RETURN (CHILDREN)";
    check_from(3, TREE, &[], &[(command, Ok(&[far, OK]))]);
}

/// LSUB: names that the reader does not see are neither listed nor stand above what is.
#[test]
fn lsub() {
    let customers = r#"* LSUB (\Noselect) "/" "Customers""#;
    let letters = r#"* LSUB () "/" "Customers/ABC/Letters""#;
    let exchanges = [("a LSUB \"\" %", &[customers, OK]), ("a LSUB \"\" *", &[letters, OK])];
    for (line, lines) in exchanges {
        check_from(3, TREE, &[], &[(line, Ok(lines))]);
    }
    check_from(7, TREE, &[], &[("a LSUB \"\" %", Ok(&[OK])), ("a LSUB \"\" *", Ok(&[OK]))]);
    check_from(
        0,
        TREE,
        &[],
        &[("a LSUB \"\" %", Ok(&[r#"* LSUB () "/" "Customers""#, r#"* LSUB () "/" "Old""#, OK]))],
    );
}

/// "Demand 3 reads over visible rows, for readers 0 to 7."
#[test]
fn walks() {
    let rooms = [ROOM; 3];
    let letters = "Customers/ABC/Letters";
    let above = ["Customers", "Customers/ABC"];
    check_walk_from(3, TREE, 0, rooms, Ok((3, &[letters], &above)));
    check_walk_from(7, TREE, 0, rooms, Ok((1, &[], &[])));
    let found = ["Customers", "Old", "Customers/DEF", letters];
    check_walk_from(0, TREE, 0, rooms, Ok((3, &found, &above)));
    check_walk_from(0, TREE, 6, rooms, Ok((2, &["Customers/DEF"], &["Customers"])));
    check_walk_from(3, TREE, 6, rooms, Ok((1, &[], &[])));
}

/// Names do not match the reader's own patterns only: an INBOX that is hidden, and one that is implied.
#[test]
fn inbox() {
    let rows = [("INBOX", "exists to:0"), ("INBOX/x", "exists to:01")];
    let inbox = r#"* LIST () "/" "INBOX""#;
    check_from(0, &rows, &[], &[("a LIST \"\" in%", Ok(&[inbox, OK]))]);
    let implied = r#"* LIST (\NonExistent \HasChildren) "/" "INBOX""#;
    check_from(1, &rows, &[], &[("a LIST \"\" in%", Ok(&[implied, OK]))]);
    check_from(2, &rows, &[], &[("a LIST \"\" in%", Ok(&[OK]))]);
}
