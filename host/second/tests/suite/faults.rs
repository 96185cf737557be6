//! Faults: which rule is broken, and where.

use second::fault::{EditFault, Fault, LineFault, ListFault, RoomFault};
use second::frames::{hex_of, Program, COMMAND, ROW, TABLE_ROOM, WALK};
use second::namespaces::checked_entries;
use second::packed::row_at;
use second::table::checked_rows;
use second::{Record, Refusal, Store, Summary, Table};

use crate::common::{table_of, Rows, ALL};

const ASCEND: &str = "names strictly ascend by bytes";
const BELOW: &str = "no row lies below a row with no inferiors";
const INBOX: &str = "a first level that equals INBOX is spelled INBOX";

/// The first row that breaks a rule is told, by its name, with the rule and the other row.
#[test]
fn rows() {
    let tables: [(&Rows, &str, &str, Option<&str>); 12] = [
        (&[("a", "0001"), ("Inbox/x", "0001")], "Inbox/x", INBOX, None),
        (&[("b", "0001"), ("a", "0001")], "a", ASCEND, Some("b")),
        (&[("a", "0001"), ("b", "0001"), ("b", "0003")], "b", ASCEND, Some("b")),
        (&[("a", "0004")], "a", "a row that does not exist has flags exactly 0002", None),
        (&[("a", "0081")], "a", "bits 7 and 15 of the flags must be 0", None),
        (&[("a", "0061")], "a", "marked and unmarked are not both set", None),
        (&[("a%", "0001")], "a%", "name bytes are 20 to 7E (hex), without % and *", None),
        (&[("a//b", "0001")], "a//b", "no level of a name is empty", None),
        (&[("", "0001")], "", "a name has 1 to 200 bytes", None),
        (&[("a", "0011"), ("a-x", "0001"), ("a/b", "0001")], "a/b", BELOW, Some("a")),
        // The row below comes before the row that is wrong by itself.
        (&[("a", "0011"), ("a/b", "0001"), ("inbox", "0001")], "a/b", BELOW, Some("a")),
        (&[("a", "0011"), ("inbox", "0001"), ("a/b", "0001")], "inbox", INBOX, None),
    ];
    for (rows, name, rule, other) in tables {
        let table = table_of(rows);
        let fault = checked_rows(Table::Packed(&table)).expect_err("a fault");
        let name_at = |at| row_at(&table, at).expect("a row").name;
        assert_eq!((name_at(fault.at), fault.rule), (name.as_bytes(), rule), "{rows:?}");
        assert_eq!(fault.other.map(name_at), other.map(str::as_bytes), "{rows:?}");
    }
}

#[test]
fn tables_as_a_whole() {
    let rows = |table: &[u8]| checked_rows(Table::Packed(table)).map(|rows| rows.len());
    assert_eq!(rows(b""), Ok(0));
    assert_eq!(rows(b"\0\x01\xFF\x01a\0\x01"), Err(fault(5, "rows fill the table exactly")));
    let many: Vec<u8> =
        (0..513).flat_map(|n| [b"\0\x01\xFF\x03", row_name(n).as_bytes()].concat()).collect();
    assert_eq!(rows(&many), Err(fault(512 * 7, "a table has at most 512 rows")));
    assert_eq!(rows(&many[..512 * 7]), Ok(512));
}

/// Of records the faults are told by numbers; the rest of check 1 is that of the packed table.
#[test]
fn records() {
    let record = |start, len| Record { flags: 1, start, len, readers: ALL };
    let lists: [(&[Record], usize, &[u8], ListFault); 7] = [
        (&[record(0, 1)], 2, b"a", fault(1, "there are as many records as the count says")),
        (&[], 0, &[0; 32_769], fault(0, "an area has at most 32,768 bytes")),
        (&[record(0, 1), record(1, 1)], 2, b"a", fault(1, "names lie inside the area")),
        (&[record(0, 0)], 1, b"a", fault(0, "a name has 1 to 200 bytes")),
        (&[record(2, 1), record(0, 3)], 2, b"b/a", overlap(1, 0)),
        (&[record(1, 2), record(0, 2), record(3, 1)], 3, b"bacd", overlap(1, 0)),
        (&[record(1, 1), record(0, 1)], 2, b"ab", ListFault { other: Some(0), ..fault(1, ASCEND) }),
    ];
    for (records, count, area, expected) in lists {
        let store = Store::counted(records.to_vec(), count, area.to_vec());
        let told = checked_rows(Table::Records(store.as_records()));
        assert_eq!(told.expect_err("a fault"), expected, "{records:?}");
    }
}

/// Of a summary, the first number that is wrong, after all other rules; and how many there are.
#[test]
fn summaries() {
    let record = |start, len| Record { flags: 1, start, len, readers: ALL };
    let store = Store::counted(vec![record(0, 1), record(1, 3)], 2, b"aa/b".to_vec());
    let told = |store: &Store| checked_rows(Table::Records(store.as_records())).map(drop);
    let disagrees = |at| Err(fault(at, "the summary of a record is what counting afresh gives"));
    assert_eq!(told(&store), Ok(()));
    for at in 0..2 {
        let mut wrong = store.clone();
        wrong.summary[at].existing_remote ^= 1;
        assert_eq!(told(&wrong), disagrees(at));
        wrong.summary.truncate(at);
        let rule = "a record is lent if the summary has a number for it";
        assert_eq!(told(&wrong), Err(fault(at, rule)));
    }
    let zero = Store { summary: vec![Summary::default(); 2], ..store.clone() };
    assert_eq!(told(&zero), disagrees(0));
    let descending = Store { area: b"ba/b".to_vec(), ..zero };
    assert_eq!(told(&descending).map_err(|fault| fault.rule), Err(ASCEND));
}

fn fault(at: usize, rule: &'static str) -> ListFault {
    ListFault { at, rule, other: None }
}

fn overlap(at: usize, other: usize) -> ListFault {
    ListFault { at, rule: "names do not overlap", other: Some(other) }
}

fn row_name(number: usize) -> String {
    format!("{number:03}")
}

#[test]
fn entries() {
    let lists: [(&[u8], usize, &str, Option<usize>); 8] = [
        (b"\x00\x00/\x03\x00/", 3, "a class is 0 personal, 1 other users or 2 shared", None),
        (&[[0, 65].as_slice(), &[b'p'; 65], b"/"].concat(), 0, "a prefix has 0 to 64 bytes", None),
        (b"\x00\x01\x7F/", 0, "prefix bytes are 20 to 7E (hex)", None),
        (b"\x00\x00 ", 0, "a delimiter is 0 for NIL, or 21 to 7E (hex)", None),
        (b"\x02\x01a/\x01\x00/", 4, "classes do not descend", Some(0)),
        (&[1, 0, b'/'].repeat(5), 12, "at most 4 entries a class", None),
        (b"\x00\x00/\x00", 3, "entries fill the list exactly", None),
        (b"\x00", 0, "entries fill the list exactly", None),
    ];
    for (list, at, rule, other) in lists {
        let fault = checked_entries(list).expect_err("a fault");
        assert_eq!(fault, ListFault { at, rule, other }, "{list:?}");
    }
}

/// What a command is refused with, the place, and the start of the rule.
#[test]
fn lines() {
    check_lines(&[
        ("a NAMESPACE", 3, 11, "a line ends with CR LF"),
        ("a NAME\0SPACE\r\n", 3, 6, "no byte of a command is 00"),
        ("a NAME\u{e9}\r\n", 3, 6, "a line holds bytes 01 to 7F"),
        ("a NAMESPACE\r\nb\r\n", 3, 13, "nothing comes after"),
        ("a LIST \"\" {1025}\r\nx\r\n", 3, 10, "a literal has at most 1,024 bytes"),
        ("a LIST {1}\r\nx {1025}\r\nx\r\n", 3, 14, "a literal has at most 1,024 bytes"),
        ("a LIST \"\" {3}\r\n", 3, 15, "a literal has all the bytes"),
        ("a LIST {1}\r\nx \n\r\n", 3, 14, "a line holds bytes 01 to 7F"),
        ("+ LIST\r\n", 4, 0, "a tag is"),
        ("a\r\n", 4, 1, "one space is expected"),
        ("a SELECT x\r\n", 5, 2, "the word is LIST, LSUB, NAMESPACE, SUBSCRIBE or UNSUBSCRIBE"),
        ("a NAMESPACE \r\n", 4, 11, "the end of the line is expected"),
        ("a LIST \"\"\r\n", 4, 9, "one space is expected"),
        ("a LIST \"\" \r\n", 4, 10, "a pattern is"),
        ("a LIST \"x *\r\n", 4, 7, "a quoted string has both quotes"),
        ("a LIST (A  B) \"\" *\r\n", 4, 10, "an option is an atom"),
        ("a LIST (A \"\" *\r\n", 4, 10, "an option is an atom"),
        ("a LIST {1}\r\nx{1}\r\ny *\r\n", 4, 13, "one space is expected"),
        ("a LIST \"\" * RETRUN ()\r\n", 4, 12, "RETURN is expected"),
        ("a LIST (HIDDEN) \"\" *\r\n", 6, 8, "SUBSCRIBED, REMOTE,"),
        ("a LIST (REMOTE (x)) \"\" *\r\n", 6, 8, "no known option has a value"),
        ("a LIST \"\" * RETURN (REMOTE)\r\n", 6, 20, "SUBSCRIBED, CHILDREN and"),
        ("a LIST (REMOTE RECURSIVEMATCH) \"\" *\r\n", 7, 15, "SUBSCRIBED or SPECIAL-USE"),
        ("a LIST \"\" (1 2 3 4 5 6 7 8 9)\r\n", 8, 10, "a command has at most 8 patterns"),
    ]);
    assert_eq!(fault_of(COMMAND, b"\0a LIST \"\" {1}\r\nx\r\n"), None);
}

/// The same of LSUB (document 02, W5).
#[test]
fn lines_of_lsub() {
    check_lines(&[
        ("a LSUBS \"\" *\r\n", 5, 2, "the word is LIST, LSUB, NAMESPACE, SUBSCRIBE or UNSUBSCRIBE"),
        ("a LSUB \"\"\r\n", 4, 9, "one space is expected"),
        ("a LSUB () \"\" *\r\n", 4, 7, "a quoted string, a literal or an atom is expected"),
        ("a LSUB \"\" (*)\r\n", 4, 10, "a pattern is"),
        ("a LSUB \"\" * *\r\n", 4, 11, "the end of the line is expected"),
        ("a LSUB \"\" * RETURN ()\r\n", 4, 11, "the end of the line is expected"),
        (
            &format!("a LSUB x {}\r\n", "%".repeat(255)),
            8,
            9,
            "a canonical pattern has at most 255 bytes",
        ),
    ]);
    assert_eq!(fault_of(COMMAND, b"\0a LSUB \"\" {1}\r\nx\r\n"), None);
}

/// The same of SUBSCRIBE and UNSUBSCRIBE (document 02, W6).
#[test]
fn lines_of_edits() {
    check_lines(&[
        ("a SUBSCRIBES x\r\n", 5, 2, "the word is LIST,"),
        ("a SUBSCRIBE\r\n", 4, 11, "one space is expected"),
        ("a SUBSCRIBE \r\n", 4, 12, "a quoted string, a literal or an atom is expected"),
        ("a SUBSCRIBE a%\r\n", 4, 13, "the end of the line is expected"),
        ("a UNSUBSCRIBE a b\r\n", 4, 15, "the end of the line is expected"),
    ]);
    assert_eq!(fault_of(COMMAND, b"\0a SUBSCRIBE {1}\r\nx\r\n"), None);
    assert_eq!(fault_of(COMMAND, b"\0a UNSUBSCRIBE \"\"\r\n"), None);
}

/// What an edit is refused for hangs on the table: the place of the name, the rule, and the row with
/// no inferiors, by its number.
#[test]
fn names_of_edits() {
    let table = table_of(&[("A", "0001"), ("b", "0011"), ("c/d", "0011")]);
    let mut program = Program { table, ..Program::default() };
    let fault = |program: &Program, line: &str| {
        program.fault(&hex_of(&[&[COMMAND, 0], line.as_bytes(), b"\r\n"].concat()))
    };
    let edit_fault = |refusal, at, rule, above| {
        Some(Fault::Edit(EditFault { name: LineFault { refusal, at, rule }, above }))
    };
    let below = "no name lies below a row with no inferiors";
    let unlawful = |at, rule, above| edit_fault(Refusal::UnlawfulName, at, rule, above);
    for (line, expected) in [
        ("a SUBSCRIBE \"\"", unlawful(12, "a name has 1 to 200 bytes", None)),
        ("a subscribe inbox/", unlawful(12, "no level of a name is empty", None)),
        ("a SUBSCRIBE b/x/y", unlawful(12, below, Some(1))),
        ("tag SUBSCRIBE \"c/d/e\"", unlawful(14, below, Some(2))),
        ("a SUBSCRIBE b", None),
        ("a UNSUBSCRIBE b/x", None),
    ] {
        assert_eq!(fault(&program, line), expected, "{line}");
    }
    let mut store = Store::of_rows(&checked_rows(Table::Packed(&program.table)).expect("rows"));
    let no_room = |rule| edit_fault(Refusal::NoRoom, 12, rule, None);
    store.area.truncate(6);
    program.store = Some(store.clone());
    let run = "a row is inserted where a free run of name bytes is long enough";
    assert_eq!(fault(&program, "a SUBSCRIBE xy"), no_room(run));
    assert_eq!(fault(&program, "a SUBSCRIBE x"), None);
    let spare = "a row is inserted where a record is spare";
    let no_number = Store { summary: store.summary[..3].to_vec(), ..store.clone() };
    store.records.truncate(3);
    for store in [store, no_number] {
        program.store = Some(store);
        assert_eq!(fault(&program, "a SUBSCRIBE x"), no_room(spare));
    }
    let rows: Vec<u8> =
        (0..512).flat_map(|n| [b"\0\x01\xFF\x03", row_name(n).as_bytes()].concat()).collect();
    let program = Program { table: rows, ..Program::default() };
    let most = "a row is inserted where there are under 512";
    assert_eq!(fault(&program, "a SUBSCRIBE x"), no_room(most));
}

fn check_lines(lines: &[(&str, u8, usize, &str)]) {
    for &(line, number, at, rule) in lines {
        let Some(Fault::Line(fault)) = fault_of(COMMAND, &[b"\0", line.as_bytes()].concat()) else {
            panic!("{line:?}: no fault of the line");
        };
        let LineFault { refusal, at: place, rule: told } = fault;
        assert_eq!((refusal.number(), place), (number, at), "{line:?}: {told}");
        assert!(told.starts_with(rule), "{line:?}: {told}");
    }
}

/// 16: a reader above 7, by whatever it sends, and the word of an edit from another reader than 0.
#[test]
fn readers() {
    let bad_table = Program { table: vec![0], ..Program::default() };
    let no_reader = Some(Fault::Reader("a reader is 0 to 7"));
    for program in [&Program::default(), &bad_table] {
        for frame in [[COMMAND, 8].as_slice(), &[COMMAND, 255, 0], &[WALK, 8, 0], &[WALK, 9, 9]] {
            assert_eq!(program.fault(&hex_of(frame)), no_reader, "{frame:?}");
        }
    }
    let rule = "edits are allowed to reader 0 only";
    for (line, at) in [("a SUBSCRIBE \"\"\r\n", 2), ("tag unsubscribe {1}\r\nx\r\n", 4)] {
        let fault = fault_of(COMMAND, &[b"\x03", line.as_bytes()].concat());
        assert_eq!(fault, Some(Fault::Line(LineFault { refusal: Refusal::Reader, at, rule })));
    }
    assert_eq!(fault_of(COMMAND, b"\x07a LSUB \"\" *\r\n"), None);
    assert_eq!(fault_of(WALK, &[7, 0]), None);
}

fn fault_of(first: u8, bytes: &[u8]) -> Option<Fault> {
    Program::default().fault(&hex_of(&[&[first], bytes].concat()))
}

#[test]
fn frames_and_rooms() {
    let program = Program { table: vec![0; TABLE_ROOM - 1], ..Program::default() };
    let frame = |bytes: &[u8]| program.fault(&hex_of(bytes));
    let room = RoomFault { stored: TABLE_ROOM - 1, added: 2, room: TABLE_ROOM };
    assert_eq!(frame(&[ROW, 0, 0]), Some(Fault::TableRoom(room)));
    assert_eq!(frame(&[ROW, 0]), None);
    assert_eq!(frame(&[WALK, 0, 4]).map(Fault::refusal), Some(Refusal::Table));
    assert_eq!(fault_of(WALK, &[0, 4]).map(Fault::refusal), Some(Refusal::UnknownOption));
    assert_eq!(fault_of(WALK, &[0, 6]), None);
    for (text, rule) in [
        ("", "a frame is not empty"),
        ("430", "a frame has an even number of digits"),
        ("43 0", "a frame holds hexadecimal digits alone"),
        ("41", "the first byte of a frame is 4D, 4E, 43 or 57"),
        ("43", "43 is followed by the byte of the reader"),
        ("57", "57 is followed by the byte of the reader and one byte more"),
        ("5700", "57 is followed by the byte of the reader and one byte more"),
        ("57000000", "57 is followed by the byte of the reader and one byte more"),
    ] {
        assert_eq!(program.fault(text.as_bytes()), Some(Fault::Frame(rule)), "{text}");
    }
    let mut edited = Program::default();
    edited.answer(&hex_of(&[&[COMMAND, 0], b"a UNSUBSCRIBE x\r\n".as_slice()].concat()));
    let rule = "no row is added after the first SUBSCRIBE or UNSUBSCRIBE that was OK";
    assert_eq!(edited.fault(b"4D"), Some(Fault::Frame(rule)));
    assert_eq!(edited.fault(b"4E"), None);
}
