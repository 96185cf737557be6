//! Check 1 and check 2: what passes and what does not.

use second::{check_namespaces, check_table, Table};

use crate::common::{check, check_with, rows_pass, table_of};

const EXISTS: &str = "exists";

#[test]
fn names() {
    let rows = [
        ("Foo", true),
        ("with space", true),
        ("\"\\", true),
        ("a/b", true),
        ("~", true),
        ("a\x1F", false),
        ("a\x7F", false),
        ("a\u{80}", false),
        ("a%", false),
        ("a*b", false),
        ("", false),
        ("/", false),
        ("/a", false),
        ("a/", false),
        ("a//b", false),
        ("INBOX", true),
        ("INBOX/inbox", true),
        ("x/inbox", true),
        ("inboxx", true),
        ("Inbox", false),
        ("inbox/x", false),
        ("1/2/3/4/5/6/7/8/9/a/b/c/d/e/f/g", true),
        ("1/2/3/4/5/6/7/8/9/a/b/c/d/e/f/g/h", false),
    ];
    for (name, passes) in rows {
        assert_eq!(rows_pass(&[(name, EXISTS)]), passes, "{name:?}");
    }
}

#[test]
fn flags() {
    let rows = [
        ("0000", false),
        ("0001", true),
        ("0002", true),
        ("0003", true),
        ("0004", false),
        ("000A", false),
        ("0102", false),
        ("001F", true),
        ("0021", true),
        ("0041", true),
        ("0061", false),
        ("0081", false),
        ("7F01", true),
        ("8001", false),
    ];
    for (flags, passes) in rows {
        assert_eq!(rows_pass(&[("Foo", flags)]), passes, "{flags}");
    }
}

#[test]
fn orders_of_rows() {
    let tables: [(&[&str], bool); 8] = [
        (&[], true),
        (&["Foo", "Foo x", "Foo-x", "Foo.x", "Foo/Bar", "Foo0"], true),
        (&["Foo", "Foo"], false),
        (&["Foo/Bar", "Foo"], false),
        (&["Foo/Bar", "Foo-x"], false),
        (&["Foo/Bar", "Foo.x"], false),
        (&["INBOX", "Z", "a"], true),
        (&["a", "Z"], false),
    ];
    for (names, passes) in tables {
        let rows: Vec<_> = names.iter().map(|name| (*name, EXISTS)).collect();
        assert_eq!(rows_pass(&rows), passes, "{names:?}");
    }
}

#[test]
fn rows_below_no_inferiors() {
    const CHILDLESS: &str = "exists noinferiors";
    let tables: [(&[(&str, &str)], bool); 5] = [
        (&[("Foo", CHILDLESS)], true),
        (&[("Foo", CHILDLESS), ("Foo-x", EXISTS), ("Foo0", EXISTS)], true),
        (&[("Foo", CHILDLESS), ("Foo-x", EXISTS), ("Foo/Bar", EXISTS)], false),
        (&[("Foo", CHILDLESS), ("Foo/a/b/c", "subscribed")], false),
        (&[("a/b", CHILDLESS), ("a/b/c", EXISTS)], false),
    ];
    for (rows, passes) in tables {
        assert_eq!(rows_pass(rows), passes, "{rows:?}");
    }
}

#[test]
fn table_as_bytes() {
    let tables: [(&[u8], bool); 8] = [
        (b"\x00\x01\xFF\x01a", true),
        (b"\x00\x01\x00\x01a", true),
        (b"\x00\x01\xFF\x01", false),
        (b"\x00\x01\xFF", false),
        (b"\x00\x01", false),
        (b"\x00", false),
        (b"\x00\x01\xFF\x00", false),
        (b"\x00\x01\xFF\x01ab", false),
    ];
    for (table, passes) in tables {
        assert_eq!(check_table(Table::Packed(table)), passes, "{table:?}");
    }
}

#[test]
fn numbers_of_rows() {
    for (count, passes) in [(512, true), (513, false)] {
        let names: Vec<_> = (0..count).map(|number| format!("{number:03}")).collect();
        let rows: Vec<_> = names.iter().map(|name| (name.as_str(), EXISTS)).collect();
        assert_eq!(rows_pass(&rows), passes, "{count} rows");
    }
}

#[test]
fn numbers_of_bytes() {
    const LONG_ROWS: usize = 160;
    for (last_name, passes) in [(124, true), (125, false)] {
        let long = |number| format!("{number:03}{}", "n".repeat(197));
        let mut names: Vec<_> = (0..LONG_ROWS).map(long).collect();
        names.push("z".repeat(last_name));
        let rows: Vec<_> = names.iter().map(|name| (name.as_str(), EXISTS)).collect();
        let table = table_of(&rows);
        assert_eq!(table.len() <= 32_768, passes);
        assert_eq!(check_table(Table::Packed(&table)), passes, "{} bytes", table.len());
    }
}

#[test]
fn namespace_lists() {
    let prefix = |length: u8| [&[0, length], vec![b'p'; length.into()].as_slice(), b"/"].concat();
    let entries = |class: u8, count: usize| [class, 0, b'/'].repeat(count);
    let lists: Vec<(Vec<u8>, bool)> = vec![
        (vec![], true),
        (b"\x00\x00/".to_vec(), true),
        (b"\x02\x01a\x00".to_vec(), true),
        (b"\x03\x00/".to_vec(), false),
        (b"\x00\x01 !".to_vec(), true),
        (b"\x00\x01%*".to_vec(), true),
        (b"\x00\x00 ".to_vec(), false),
        (b"\x00\x00\x01".to_vec(), false),
        (b"\x00\x00\x7F".to_vec(), false),
        (b"\x00\x01\x1F/".to_vec(), false),
        (b"\x00\x01\x7F/".to_vec(), false),
        (b"\x00\x00".to_vec(), false),
        (b"\x00".to_vec(), false),
        (b"\x00\x05ab/".to_vec(), false),
        (prefix(64), true),
        (prefix(65), false),
        (entries(0, 4), true),
        (entries(0, 5), false),
        (entries(2, 4), true),
        (entries(2, 5), false),
        ([entries(0, 4), entries(1, 4), entries(2, 4)].concat(), true),
        ([entries(0, 1), entries(2, 1)].concat(), true),
        ([entries(1, 1), entries(0, 1)].concat(), false),
    ];
    for (list, passes) in lists {
        assert_eq!(check_namespaces(&list), passes, "{list:?}");
    }
}

/// 1 comes before 2, and both before the line is looked at.
#[test]
fn order_of_the_checks() {
    let bad_rows = [("a//b", EXISTS)];
    let bad_entries = [(3, "", None)];
    for command in ["a NAMESPACE", "a LIST \"\" *", "", "a NOOP"] {
        check_with(&bad_rows, &bad_entries, &[(command, Err(1))]);
        check(&bad_rows, &[(command, Err(1))]);
        check_with(&[], &bad_entries, &[(command, Err(2))]);
    }
}

#[test]
fn escapes_in_namespaces() {
    check_with(
        &[],
        &[(1, "a\"b\\", Some(b'"')), (1, "%", Some(b'\\')), (2, "", None)],
        &[(
            "a namespace",
            Ok(&[r#"* NAMESPACE NIL (("a\"b\\" "\"")("%" "\\")) (("" NIL))"#, "a OK done"]),
        )],
    );
}
