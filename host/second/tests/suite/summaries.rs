//! The summary beside the table (document 02, W13), by the sentences of the request.

use second::rows::MAX_ROWS;
use second::{
    answer, check_table, collect, compact, summarize, Record, Refusal, Store, Summary, Table,
};

use crate::common::{table_of, Numbers, Rows, FILL, SPARE_SUMMARY};
use crate::stores::{full, row, rows_of, run, store};

/// Subscribed local and remote, existing local and remote.
type Counts = [u16; 4];

const fn of([one, two, three, four]: Counts) -> Summary {
    Summary {
        subscribed_local: one,
        subscribed_remote: two,
        existing_local: three,
        existing_remote: four,
    }
}

fn numbers(store: &Store) -> Vec<u64> {
    store.summary.iter().map(|summary| summary.number()).collect()
}

fn passes(store: &Store) -> bool {
    check_table(Table::Records(store.as_records()))
}

/// Rows, each with the four counts below it.
fn check_counts<const N: usize>(rows: [(&str, &str, Counts); N]) {
    let names: Vec<(&str, &str)> = rows.iter().map(|&(name, flags, _)| (name, flags)).collect();
    let store = counted(&names);
    assert_eq!(store.summary, rows.map(|(_, _, counts)| of(counts)));
    assert!(passes(&store));
}

fn counted(rows: &Rows) -> Store {
    Store::of_packed(&table_of(rows)).expect("rows")
}

/// "four numbers of rows strictly below its name", at any depth; a row that exists and is subscribed counts in two,
/// a row 0002 is subscribed local; who sees a row is no matter.
#[test]
fn rows_strictly_below() {
    check_counts([]);
    check_counts([("a", "0001", [0; 4])]);
    check_counts([
        ("a", "0002", [2, 1, 3, 2]),
        ("a/b", "exists", [1, 1, 1, 2]),
        ("a/b/c", "0002", [0; 4]),
        ("a/b/d", "exists remote to:", [0, 1, 1, 1]),
        ("a/b/d/e", "exists subscribed remote to:7", [0; 4]),
        ("a/b/d/f", "exists", [0; 4]),
        ("a/c", "exists subscribed marked trash", [0; 4]),
    ]);
}

/// Names that only begin as another does lie beside it: blanks and dashes sort between a name and its children.
#[test]
fn names_between_parents_and_children() {
    check_counts([
        ("Foo", "exists", [0, 0, 1, 0]),
        ("Foo x", "exists", [0, 0, 1, 0]),
        ("Foo x/y", "exists", [0; 4]),
        ("Foo-x", "exists", [1, 0, 0, 0]),
        ("Foo-x/y", "0002", [0; 4]),
        ("Foo/Bar", "exists", [0; 4]),
        ("Foo0", "exists", [0; 4]),
    ]);
    check_counts([
        ("a", "exists", [0, 0, 1, 0]),
        ("a-", "exists", [0, 0, 0, 1]),
        ("a--", "exists", [1, 0, 0, 0]),
        ("a--/x", "0002", [0; 4]),
        ("a-/x", "exists remote", [0; 4]),
        ("a/x", "exists", [0; 4]),
    ]);
}

#[test]
fn deep_names_and_full_tables() {
    let levels: Vec<String> = (1..=16).map(|count| vec!["l"; count].join("/")).collect();
    let rows: Vec<(&str, &str)> = levels.iter().map(|name| (name.as_str(), "0003")).collect();
    let store = counted(&rows);
    for (at, summary) in store.summary.iter().enumerate() {
        let below = 15 - at as u16;
        assert_eq!(*summary, of([below, 0, below, 0]));
    }
    let names: Vec<String> = (0..MAX_ROWS - 1).map(|at| format!("a/{at:03}")).collect();
    let rows = names.iter().map(|name| (name.as_str(), "exists remote"));
    let store = counted(&[("a", "0001")].into_iter().chain(rows).collect::<Vec<_>>());
    assert_eq!(store.summary[0], of([0, 0, 0, 511]));
}

/// "four counts of 16 bits in one number of 64, in the order of the text"
#[test]
fn one_number() {
    assert_eq!(of([1, 2, 3, 4]).number(), 0x0004_0003_0002_0001);
    for bit in 0..64 {
        assert_eq!(Summary::from_number(1 << bit).number(), 1 << bit);
    }
}

/// A table with rows below one another, and two spare records.
fn tree() -> Store {
    let area = b"FooFoo-xFoo/BarFoo/Bar/far..........";
    store(area, &[row(1, 0, 3), row(3, 3, 5), row(2, 8, 7), row(7, 15, 11)], 2)
}

/// "one that disagrees is refusal 1", for commands, walks and W7; the numbers of spare records are not looked at.
#[test]
fn numbers_that_disagree() {
    for (at, bit) in (0..6).flat_map(|at| (0..64).map(move |bit| (at, bit))) {
        let mut before = tree();
        before.summary[at] = Summary::from_number(before.summary[at].number() ^ 1 << bit);
        let is_spare = at >= before.count;
        assert_eq!(passes(&before), is_spare);
        let mut table = before.clone();
        let expected = |number| if is_spare { number } else { Err(1) };
        for (command, number) in [
            ("a LIST \"\" x", Ok(())),
            ("a SUBSCRIBE \"\"", Err(14)),
            ("a NOOP", Err(5)),
            ("a UNSUBSCRIBE x", Ok(())),
        ] {
            assert_eq!(run(&mut table, command), expected(number), "{command}");
            assert_eq!(numbers(&table), numbers(&before), "{command}");
        }
        let mut lent = [[FILL; 40]; 3];
        let [scratch, found, pending] = &mut lent;
        let walked = collect(0, Table::Records(table.as_records()), 4, scratch, found, pending);
        assert_eq!(walked.map(drop).map_err(Refusal::number), expected(Err(6)));
        assert_eq!(table.lend(compact).map_err(Refusal::number), expected(Ok(())));
        assert_eq!(numbers(&table), numbers(&before));
        // Counting looks at no number.
        assert_eq!(table.lend(summarize), Ok(()));
        assert!(passes(&table));
    }
}

/// 16 of a reader above 7 comes before, 2 after.
#[test]
fn before_and_after() {
    let mut table = tree();
    table.summary[0] = Summary::default();
    let ask = |table: &mut Store, reader, list: &[u8]| {
        let asked = table.lend(|lent| answer(reader, lent, list, b"", &mut []));
        asked.map(drop).map_err(Refusal::number)
    };
    assert_eq!(ask(&mut table, 8, b"\x09"), Err(16));
    assert_eq!(ask(&mut table, 0, b"\x09"), Err(1));
    assert_eq!(ask(&mut tree(), 0, b"\x09"), Err(2));
}

/// "A record is lent only if the run has a number for it: a count above that is 1, an insertion beyond it 15."
#[test]
fn runs_of_any_length() {
    for length in 0..9 {
        let mut table = tree();
        table.summary.resize(length, SPARE_SUMMARY);
        let is_enough = length >= 4;
        assert_eq!(passes(&table), is_enough, "{length}");
        let before = table.clone();
        assert_eq!(table.lend(summarize).is_ok(), is_enough, "{length}");
        assert_eq!(table, before, "{length}");
        let mut inserted = 0;
        let end = loop {
            match run(&mut table, &format!("a SUBSCRIBE {inserted}")) {
                Ok(()) => inserted += 1,
                Err(number) => break number,
            }
        };
        let (room, number) = if is_enough { (length.min(6) - 4, 15) } else { (0, 1) };
        assert_eq!((inserted, end), (room, number), "{length}");
        // Numbers past the records stay.
        let past = table.summary.get(6..).unwrap_or_default();
        assert!(past.iter().all(|&number| number == SPARE_SUMMARY), "{length}");
    }
}

/// "SUBSCRIBE and UNSUBSCRIBE keep it up to date in an inserted row and the affected ancestors only (beside W6's
/// named row)": the place of each number that changes, and what it becomes.
#[test]
fn what_edits_change() {
    let spare = SPARE_SUMMARY;
    let zero = Summary::default();
    let [foo, beside, bar, far] = [[1, 1, 0, 1], [0; 4], [0, 1, 0, 1], [0; 4]].map(of);
    assert_eq!(tree().summary, [foo, beside, bar, far, spare, spare]);
    for (command, expected) in [
        // A flag: the ancestors alone.
        ("UNSUBSCRIBE Foo/Bar/far", [of([1, 0, 0, 1]), zero, of([0, 0, 0, 1]), zero, spare, spare]),
        ("SUBSCRIBE Foo", [foo, zero, bar, zero, spare, spare]),
        ("UNSUBSCRIBE Foo-x", [foo, zero, bar, zero, spare, spare]),
        // An insertion: its own number is counted, and those after it move up.
        ("SUBSCRIBE Foo/A", [of([2, 1, 0, 1]), zero, zero, bar, zero, spare]),
        ("SUBSCRIBE Foo/Bar/a", [of([2, 1, 0, 1]), zero, of([1, 1, 0, 1]), zero, zero, spare]),
        ("SUBSCRIBE A", [zero, foo, zero, bar, zero, spare]),
        // A removal: those after it move down, and the freed one becomes zero.
        ("UNSUBSCRIBE Foo/Bar", [of([0, 1, 0, 1]), zero, zero, zero, spare, spare]),
        // Nothing.
        ("SUBSCRIBE Foo/Bar", [foo, beside, bar, far, spare, spare]),
        ("UNSUBSCRIBE x", [foo, beside, bar, far, spare, spare]),
    ] {
        let mut table = tree();
        assert_eq!(run(&mut table, &format!("a {command}")), Ok(()), "{command}");
        assert_eq!(table.summary, expected, "{command}");
    }
}

/// The inserted row may have rows below it, which are counted.
#[test]
fn a_parent_inserted() {
    let rows = [row(1, 0, 3), row(7, 3, 5)];
    let mut table = store(b"a/ba/b/c..", &rows, 1);
    assert_eq!(table.summary[..2], [of([0, 1, 0, 1]), of([0; 4])]);
    assert_eq!(run(&mut table, "a SUBSCRIBE a"), Ok(()));
    assert_eq!(table.summary, [of([0, 1, 1, 1]), of([0, 1, 0, 1]), of([0; 4])]);
    assert_eq!(run(&mut table, "a UNSUBSCRIBE a"), Ok(()));
    assert_eq!(table.summary, [of([0, 1, 0, 1]), of([0; 4]), of([0; 4])]);
}

/// Whether a row changed is given with each answer.
#[test]
fn changed_rows() {
    let ask = |table: &mut Store, line: &str, room| {
        let line = format!("a {line}\r\n");
        let answered = table.lend(|lent| answer(0, lent, b"", line.as_bytes(), &mut vec![0; room]));
        answered.map(|answered| answered.changed).map_err(Refusal::number)
    };
    for (line, expected) in [
        ("SUBSCRIBE Foo", Ok(true)),
        ("SUBSCRIBE Foo-x", Ok(false)),
        ("SUBSCRIBE Foo/Bar", Ok(false)),
        ("SUBSCRIBE New", Ok(true)),
        ("SUBSCRIBE inbox", Ok(true)),
        ("SUBSCRIBE \"\"", Err(14)),
        ("UNSUBSCRIBE Foo", Ok(false)),
        ("UNSUBSCRIBE Foo-x", Ok(true)),
        ("UNSUBSCRIBE Foo/Bar", Ok(true)),
        ("UNSUBSCRIBE nothing", Ok(false)),
        ("UNSUBSCRIBE \"\"", Ok(false)),
        ("LIST \"\" *", Ok(false)),
        ("LSUB \"\" *", Ok(false)),
        ("NAMESPACE", Ok(false)),
        ("NOOP", Err(5)),
    ] {
        let mut table = tree();
        assert_eq!(ask(&mut table, line, 500), expected, "{line}");
        assert_eq!(table != tree(), expected == Ok(true), "{line}");
        assert_eq!(ask(&mut tree(), line, 0), expected.and(Err(9)), "{line}");
    }
}

/// Counting afresh is 1 for what does not pass the rest of check 1, and then no number changes.
#[test]
fn counting_tables_that_do_not_pass() {
    let with = |rows: &[Record], area: &[u8]| store(area, rows, 1);
    for mut before in [
        Store { count: 5, ..tree() },
        Store { count: 7, ..tree() },
        Store { count: usize::MAX, ..tree() },
        full(MAX_ROWS + 1, 4, 0),
        with(&[row(1, 0, 1), row(1, 0, 2)], b"ab"),
        with(&[row(1, 1, 1), row(1, 0, 1)], b"ab"),
        with(&[row(0, 0, 1)], b"a"),
        with(&[row(0x11, 0, 1), row(1, 1, 3)], b"aa/b"),
    ] {
        before.summary.fill(SPARE_SUMMARY);
        let mut after = before.clone();
        assert_eq!(after.lend(summarize), Err(Refusal::Table));
        assert_eq!(after, before);
    }
}

/// Series of edits over families of names: the numbers are those of the same rows in a table that was made anew.
#[test]
fn after_any_series() {
    let parents = ["Foo", "Foo x", "Foo-x", "a", "a-", "a--", "Foo/Bar", "a/b/c/d/e"];
    let ends = ["", "/x", "/x/y", "/Bar", "-", " "];
    let (mut changed, mut kept) = (0, 0);
    for seed in 0..40 {
        let mut random = Numbers(seed);
        let mut table = store(&[FILL; 300], &[], 40);
        for _ in 0..60 {
            let word = ["SUBSCRIBE", "SUBSCRIBE", "UNSUBSCRIBE"][random.below(3)];
            let (parent, end) = (parents[random.below(8)], ends[random.below(6)]);
            let before = table.clone();
            let result = run(&mut table, &format!("a {word} \"{parent}{end}\""));
            assert!(matches!(result, Ok(()) | Err(15)));
            changed += usize::from(table != before);
            kept += usize::from(table == before);
            let rows = rows_of(&table);
            let rows: Vec<(&str, String)> =
                rows.iter().map(|(name, flags)| (name.as_str(), format!("{flags:04X}"))).collect();
            let anew: Vec<(&str, &str)> =
                rows.iter().map(|(name, flags)| (*name, flags.as_str())).collect();
            assert_eq!(counted(&anew).summary, table.summary[..table.count], "seed {seed}");
        }
    }
    assert!(changed > 800 && kept > 500, "{changed} {kept}");
}
