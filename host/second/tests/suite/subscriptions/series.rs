//! Series of edits, and what is listed and found between them.

use std::collections::BTreeSet;

use second::{collect, Store, Table};

use crate::common::Numbers;
use crate::stores::{row, rows_of, run, run_in, store, tree};

/// "Demands 2 and 3 read over the table at the time of the command".
#[test]
fn listings_and_walks_between_edits() {
    let mut store = tree();
    store.area.resize(80, b'.');
    let listed = |store: &mut Store, command: &str| {
        let (result, out) = run_in(store, command, 500);
        let text = out[..result.expect("an answer")].to_vec();
        String::from_utf8(text).expect("ASCII").replace("\r\n", "|")
    };
    let walked = |store: &Store| {
        let mut lent = vec![[0; 200]; 3];
        let [scratch, found, pending] = lent.as_mut_slice() else { unreachable!() };
        let table = Table::Records(store.as_records());
        let (count, length) = collect(0, table, 0, scratch, found, pending).expect("a walk");
        (count, found[..length].escape_ascii().to_string())
    };
    let lsub = "a LSUB \"\" %";
    assert_eq!(
        listed(&mut store, lsub),
        "* LSUB (\\Noselect) \"/\" \"Foo\"|* LSUB () \"/\" \"Moo\"|a OK done|"
    );
    assert_eq!(walked(&store), (2, "\\x03Moo\\x07Foo/Bar".to_string()));
    for command in ["a SUBSCRIBE Foo", "a UNSUBSCRIBE Foo/Bar", "a UNSUBSCRIBE Moo"] {
        assert_eq!(run(&mut store, command), Ok(()));
    }
    assert_eq!(listed(&mut store, lsub), "* LSUB () \"/\" \"Foo\"|a OK done|");
    assert_eq!(walked(&store), (1, "\\x03Foo".to_string()));
    assert_eq!(run(&mut store, "a SUBSCRIBE Customers/ABC"), Ok(()));
    assert_eq!(
        listed(&mut store, "a LIST (SUBSCRIBED RECURSIVEMATCH) \"\" %"),
        "* LIST (\\NonExistent) \"/\" \"Customers\" (\"CHILDINFO\" (\"SUBSCRIBED\"))|\
         * LIST (\\Subscribed) \"/\" \"Foo\"|a OK done|"
    );
    assert_eq!(walked(&store), (2, "\\x03Foo\\rCustomers/ABC".to_string()));
    assert_eq!(run(&mut store, "a UNSUBSCRIBE Customers/ABC"), Ok(()));
    assert_eq!(walked(&store), (1, "\\x03Foo".to_string()));
}

const NAMES: [&str; 14] = [
    "a",
    "a/b",
    "a/b/c",
    "a-b",
    "b",
    "inbox",
    "Inbox/x",
    "INBOX",
    "inboxx",
    "Z",
    "a/",
    "long name",
    "longer name/with levels",
    "b/c",
];

/// "After any series of edits the subscribed names are those that a plain set, starting with the
/// table's and given the same accepted edits, names so spelled, would hold." And "a success changes
/// only the named row, the other rows keeping name, flags and order".
#[test]
fn a_plain_set() {
    let (mut accepted, mut refused) = (0, [0; 16]);
    for seed in 0..300 {
        let mut numbers = Numbers(seed);
        let rows = [row(1, 4, 1), row(0x13, 0, 3), row(2, 8, 1)];
        let mut store = store(b"a/b.Z...b", &rows[..numbers.below(4)], numbers.below(8));
        store.records[..store.count].sort_by_key(|row| (row.start != 4, row.start));
        store.area.resize(9 + numbers.below(60), b'-');
        let is_subscribed = |(_, flags): &(String, u16)| flags & 2 != 0;
        let subscribed = |store: &Store| {
            let rows = rows_of(store).into_iter().filter(is_subscribed);
            rows.map(|(name, _)| name).collect::<BTreeSet<String>>()
        };
        let mut set = subscribed(&store);
        for _ in 0..40 {
            let name = NAMES[numbers.below(NAMES.len())];
            let word = ["SUBSCRIBE", "UNSUBSCRIBE"][numbers.below(2)];
            let before = rows_of(&store);
            let result = run(&mut store, &format!("a {word} \"{name}\""));
            let spelled = match name {
                "inbox" => "INBOX".to_string(),
                "Inbox/x" => "INBOX/x".to_string(),
                _ => name.to_string(),
            };
            match result {
                Ok(()) if word == "SUBSCRIBE" => drop(set.insert(spelled.clone())),
                Ok(()) => drop(set.remove(&spelled)),
                Err(number) => refused[usize::from(number)] += 1,
            }
            accepted += usize::from(result.is_ok());
            assert_eq!(subscribed(&store), set, "seed {seed}");
            let others = |rows: Vec<(String, u16)>| {
                rows.into_iter().filter(|(name, _)| *name != spelled).collect::<Vec<_>>()
            };
            assert_eq!(others(rows_of(&store)), others(before), "seed {seed}");
        }
    }
    assert!(accepted > 5_000 && refused[14] > 300 && refused[15] > 300, "{accepted} {refused:?}");
}
