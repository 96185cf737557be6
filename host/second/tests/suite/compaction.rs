//! Names moved together (document 02, W7), by the sentences of the request: every record, every byte
//! of the area, and what is answered before and after.

use second::records::MAX_AREA;
use second::rows::MAX_ROWS;
use second::{collect, compact, Record, Refusal, Store, Table};

use crate::common::{Numbers, FILL};
use crate::stores::{full, row, rows_of, run, run_in, store, tree};

/// More than any answer here.
const ROOM: usize = 4_000;
/// Option bytes up to one above the lawful ones.
const OPTIONS: u8 = 9;

/// What the operation leaves of a table that passes. Its rows keep names, flags and order, and done
/// twice is done once.
fn compacted(before: &Store) -> Store {
    let mut after = before.clone();
    assert_eq!(after.lend(compact), Ok(()));
    assert_eq!(rows_of(&after), rows_of(before));
    let mut twice = after.clone();
    assert_eq!(twice.lend(compact), Ok(()));
    assert_eq!(twice, after);
    after
}

/// How many bytes of the area no row uses.
fn free_bytes(store: &Store) -> usize {
    let rows = &store.records[..store.count];
    store.area.len() - rows.iter().map(|row| usize::from(row.len)).sum::<usize>()
}

/// "in the order of their starts", which here is not that of the rows.
#[test]
fn names_in_the_order_of_their_starts() {
    let rows = [row(1, 10, 3), row(3, 3, 7), row(0x31, 13, 5), row(2, 0, 3)];
    let area = [b"MooFoo/BarFooINBOX".as_slice(), &[0; 16]].concat();
    assert_eq!(compacted(&tree()), store(&area, &rows, 2));
    let before = store(b"--a/b......c.A", &[row(1, 13, 1), row(2, 2, 3), row(2, 11, 1)], 0);
    let rows = [row(1, 4, 1), row(2, 0, 3), row(2, 3, 1)];
    assert_eq!(compacted(&before), store(b"a/bcA\0\0\0\0\0\0\0\0\0", &rows, 0));
}

/// An area, and the starts of the rows, whose names have one byte.
type Names = (&'static [u8], &'static [u16]);

/// "so that free bytes form one run of zeros at the end": gaps at the front, between names and at the
/// end, whatever they hold.
#[test]
fn free_bytes_form_one_run_of_zeros() {
    let cases: [(Names, Names); 16] = [
        ((b"", &[]), (b"", &[])),
        ((b"rubbish", &[]), (b"\0\0\0\0\0\0\0", &[])),
        ((b"x", &[0]), (b"x", &[0])),
        ((b"x..", &[0]), (b"x\0\0", &[0])),
        ((b"..x", &[2]), (b"x\0\0", &[0])),
        ((b".x.", &[1]), (b"x\0\0", &[0])),
        ((b"xy", &[0, 1]), (b"xy", &[0, 1])),
        ((b"yx", &[1, 0]), (b"yx", &[1, 0])),
        ((b"x.y", &[0, 2]), (b"xy\0", &[0, 1])),
        ((b"y.x", &[2, 0]), (b"yx\0", &[1, 0])),
        ((b"y...x...", &[4, 0]), (b"yx\0\0\0\0\0\0", &[1, 0])),
        ((b"zyx", &[2, 1, 0]), (b"zyx", &[2, 1, 0])),
        ((b"y.z.x.", &[4, 0, 2]), (b"yzx\0\0\0", &[2, 0, 1])),
        ((b"\xFFx\xFFy\xFF", &[1, 3]), (b"xy\0\0\0", &[0, 1])),
        ((b"xxyyxy", &[1, 3]), (b"xy\0\0\0\0", &[0, 1])),
        ((b"\0\0x\0\0y", &[2, 5]), (b"xy\0\0\0\0", &[0, 1])),
    ];
    for (before, after) in cases {
        let [before, after] = [before, after].map(|(area, starts)| {
            let rows: Vec<Record> = starts.iter().map(|&start| row(1, start, 1)).collect();
            store(area, &rows, 1)
        });
        assert_eq!(compacted(&before), after, "{}", before.area.escape_ascii());
    }
}

/// "spare records .. stay as they were", be they one or many, with rows before them or without.
#[test]
fn spare_records_stay() {
    for spare in [0, 1, 2, MAX_ROWS, 70_000] {
        assert_eq!(compacted(&store(b"..", &[], spare)), store(b"\0\0", &[], spare));
        let (before, after) = ([row(3, 1, 1)], [row(3, 0, 1)]);
        assert_eq!(compacted(&store(b".x", &before, spare)), store(b"x\0", &after, spare));
    }
    // One that would be a row of the same name, and one that lies in a name.
    let spare = [row(1, 2, 1), row(2, 0, 2)];
    let before = Store { count: 1, ..store(b"..x", &[&[row(1, 2, 1)], &spare[..]].concat(), 0) };
    let after = Store { count: 1, ..store(b"x\0\0", &[&[row(1, 0, 1)], &spare[..]].concat(), 0) };
    assert_eq!(compacted(&before), after);
}

/// No free byte: nothing changes, whatever the order of the names. The most rows and the largest area
/// among them.
#[test]
fn no_free_byte() {
    for full in [full(3, 4, 0), full(MAX_ROWS, 4, 3), full(MAX_ROWS, 64, 0), full(163, 200, 9)] {
        assert_eq!(compacted(&full), full);
        let mut turned = full.clone();
        turned.area.rotate_left(usize::from(full.records[0].len));
        let last = full.area.len() - usize::from(full.records[0].len);
        turned.records[0].start = last as u16;
        turned.records[1..full.count].iter_mut().for_each(|row| row.start -= u16::from(row.len));
        assert_eq!(compacted(&turned), turned);
    }
}

/// Names at the end of the largest area, the longest among them, come to its front.
#[test]
fn the_largest_area() {
    for length in [1, 200] {
        let start = MAX_AREA - length;
        let mut before = store(&[b'n'; MAX_AREA], &[row(1, start as u16, length as u8)], 0);
        before.area[..start].fill(FILL);
        let mut area = vec![0; MAX_AREA];
        area[..length].fill(b'n');
        assert_eq!(compacted(&before), store(&area, &[row(1, 0, length as u8)], 0));
    }
    // 512 names with a byte before each.
    let (mut before, after) = (full(MAX_ROWS, 63, 0), full(MAX_ROWS, 63, 0));
    before.area = after.area.chunks(63).flat_map(|name| [b"/", name].concat()).collect();
    let apart = before.records.iter_mut().enumerate();
    apart.for_each(|(at, row)| row.start = (64 * at + 1) as u16);
    assert_eq!(before.area.len(), MAX_AREA);
    let area = [after.area.as_slice(), &[0; MAX_ROWS]].concat();
    assert_eq!(compacted(&before), Store { area, ..after });
}

/// "Names, flags .. stay": every lawful set of flags.
#[test]
fn flags_stay() {
    for flags in (0..=u16::MAX).filter(|flags| flags & 0x8081 == 1 && flags & 0x60 != 0x60) {
        let before = store(b".x", &[row(flags, 1, 1)], 0);
        assert_eq!(compacted(&before), store(b"x\0", &[row(flags, 0, 1)], 0));
    }
}

/// "a table that does not pass is 1, unchanged".
#[test]
fn tables_that_do_not_pass() {
    let two = store(b".a.b", &[row(1, 1, 1), row(1, 3, 1)], 1);
    let with = |rows: [Record; 2]| store(b".a.b", &rows, 1);
    let area = |area: &[u8]| Store { area: area.to_vec(), ..two.clone() };
    let cases = [
        Store { count: 3, ..two.clone() },
        Store { count: 4, ..two.clone() },
        Store { count: usize::MAX, ..two.clone() },
        Store { count: 2 + (1 << 32), ..two.clone() },
        full(MAX_ROWS + 1, 4, 0),
        area(&[b'a'; MAX_AREA + 1]),
        Store { count: 0, ..area(&[FILL; MAX_AREA + 1]) },
        area(b".a."),
        area(b""),
        area(b".a.%"),
        area(b".b.a"),
        area(b".a.a"),
        with([row(1, 1, 1), row(1, 2, 2)]),
        with([row(1, 1, 0), row(1, 3, 1)]),
        with([row(1, 1, 1), row(1, 65_535, 2)]),
        with([row(1, 1, 1), row(0, 3, 1)]),
        with([row(1, 1, 1), row(0x8001, 3, 1)]),
        store(b"ab", &[row(1, 0, 1), row(1, 0, 2)], 0),
        store(b".a.a/b", &[row(0x11, 1, 1), row(1, 3, 3)], 0),
    ];
    assert_eq!(two.clone().lend(compact), Ok(()));
    for before in cases {
        let mut after = before.clone();
        assert_eq!(after.lend(compact), Err(Refusal::Table));
        assert!(after == before, "{:?} over {} bytes", before.records, before.area.len());
    }
}

/// What a command answers, with every byte of the buffer, and the rows that it leaves.
type Reply = (Result<usize, u8>, Vec<u8>, Vec<(String, u16)>);

fn reply(before: &Store, command: &str, room: usize) -> Reply {
    let mut store = before.clone();
    let (result, out) = run_in(&mut store, command, room);
    (result, out, rows_of(&store))
}

/// "every answer but a SUBSCRIBE's 15 stay as they were", and so do the rows that an edit leaves. What
/// was refused with 15 is refused with 15 or 9, or done.
fn check_replies(before: &Store, after: &Store, command: &str) {
    for room in [0, 10, 11, ROOM] {
        let (then, now) = (reply(before, command, room), reply(after, command, room));
        match then.0 {
            Err(15) => assert!(matches!(now.0, Ok(11) | Err(9 | 15)), "{command}: {:?}", now.0),
            _ => assert_eq!(now, then, "{command}"),
        }
    }
}

/// The result of a walk, and its three buffers.
type Walked = (Result<(usize, usize), Refusal>, Vec<Vec<u8>>);

fn walked(store: &Store, option: u8) -> Walked {
    let mut lent = vec![vec![FILL; ROOM]; 3];
    let [scratch, found, pending] = lent.as_mut_slice() else { unreachable!() };
    (collect(0, Table::Records(store.as_records()), option, scratch, found, pending), lent)
}

const COMMANDS: [&str; 18] = [
    "a LIST \"\" *",
    "a LIST (REMOTE) \"\" % RETURN (CHILDREN SUBSCRIBED SPECIAL-USE)",
    "a LIST (SUBSCRIBED RECURSIVEMATCH) \"\" %",
    "a LIST (RECURSIVEMATCH) \"\" %",
    "a LSUB \"\" *",
    "a LSUB \"\" %",
    "a NAMESPACE",
    "a NOOP",
    "a SUBSCRIBE Foo",
    "a SUBSCRIBE Foo/x",
    "a SUBSCRIBE inbox/x",
    "a SUBSCRIBE \"\"",
    "a SUBSCRIBE seven77",
    "a SUBSCRIBE sixteen-sixteen-",
    "a SUBSCRIBE seventeen-17bytes",
    "a UNSUBSCRIBE Moo",
    "a UNSUBSCRIBE Foo/Bar",
    "a UNSUBSCRIBE nothing",
];

#[test]
fn every_command_and_walk_as_before() {
    let before = tree();
    let after = compacted(&before);
    COMMANDS.into_iter().for_each(|command| check_replies(&before, &after, command));
    (0..OPTIONS).for_each(|option| assert_eq!(walked(&before, option), walked(&after, option)));
}

/// "Straight after the operation, no edit between, 15 for want of bytes is given exactly if the free
/// bytes in all are fewer than the name's."
fn check_room(after: &Store) {
    let free = free_bytes(after);
    let near = (free.max(2) - 1..=free + 1).chain([1, 199, 200]);
    for length in near.filter(|length| (1..=200).contains(length)) {
        let name = "~".repeat(length);
        let is_refused = length > free || after.count == after.records.len();
        let expected = if is_refused { Err(15) } else { Ok(()) };
        let result = run(&mut after.clone(), &format!("a SUBSCRIBE {name}"));
        assert_eq!(result, expected, "{length} of {free} free bytes");
    }
}

#[test]
fn room_by_the_free_bytes_in_all() {
    let before = tree();
    assert_eq!(free_bytes(&before), 16);
    // The longest run has 6 bytes.
    let subscribed = |store: &Store, length: usize| {
        run(&mut store.clone(), &format!("a SUBSCRIBE {}", "n".repeat(length)))
    };
    let after = compacted(&before);
    for length in 1..=200 {
        let by = |room: usize| if length <= room { Ok(()) } else { Err(15) };
        assert_eq!(subscribed(&before, length), by(6), "{length} before");
        assert_eq!(subscribed(&after, length), by(16), "{length} after");
    }
    for spare in 0..2 {
        check_room(&compacted(&store(b"..x..y..", &[row(1, 2, 1), row(1, 5, 1)], spare)));
        check_room(&compacted(&store(b"xy", &[row(1, 0, 1), row(1, 1, 1)], spare)));
        check_room(&compacted(&store(&[FILL; 300], &[], spare)));
    }
}

/// 512 rows and records that are all rows are refused with 15 as before: bytes are not all that an
/// insertion needs.
#[test]
fn no_room_for_a_row() {
    let mut most = full(MAX_ROWS, 4, 9);
    let mut no_spare = full(3, 4, 0);
    for full in [&mut most, &mut no_spare] {
        full.area.extend_from_slice(&[FILL; 9]);
        assert_eq!(run(&mut compacted(full), "a SUBSCRIBE x"), Err(15));
    }
}

/// "Room that removal leaves": holes between names have no room for a longer one until names are moved
/// together, and a removal after that makes a hole again.
#[test]
fn room_that_removal_leaves() {
    let mut store = store(&[b'.'; 12], &[], 5);
    for name in ["aa", "bb", "cc", "dd", "ee", "ff"] {
        let expected = if name == "ff" { Err(15) } else { Ok(()) };
        assert_eq!(run(&mut store, &format!("a SUBSCRIBE {name}")), expected);
    }
    for name in ["bb", "dd"] {
        assert_eq!(run(&mut store, &format!("a UNSUBSCRIBE {name}")), Ok(()));
    }
    assert_eq!(store.area, b"aa\0\0cc\0\0ee..");
    assert_eq!(run(&mut store, "a SUBSCRIBE sixsix"), Err(15));
    store = compacted(&store);
    assert_eq!(store.area, b"aaccee\0\0\0\0\0\0");
    assert_eq!(run(&mut store, "a SUBSCRIBE sixsix"), Ok(()));
    assert_eq!(store.area, b"aacceesixsix");
    assert_eq!(run(&mut store, "a UNSUBSCRIBE cc"), Ok(()));
    assert_eq!(run(&mut store, "a UNSUBSCRIBE sixsix"), Ok(()));
    assert_eq!(run(&mut store, "a SUBSCRIBE eight888"), Err(15));
    store = compacted(&store);
    assert_eq!(run(&mut store, "a SUBSCRIBE eight888"), Ok(()));
    assert_eq!(store.area, b"aaeeeight888");
}

/// Names that edits come and go with, of many lengths.
fn some_name(numbers: &mut Numbers) -> String {
    let number = numbers.below(40);
    format!("{}{number}", ["n", "long", "a/b/", "the longest name of all "][number % 4])
}

/// Long series of edits: between them all names are moved together, and everything is answered as if
/// they were not, but for 15.
#[test]
fn series_of_edits() {
    let (mut with_holes, mut refused_before, mut done_after) = (0, 0, 0);
    for seed in 0..120 {
        let mut numbers = Numbers(seed);
        let rows = [row(1, 4, 1), row(0x13, 0, 3)];
        let mut store = store(b"a/b.Z---", &rows, [1, 9, 40][numbers.below(3)]);
        store.area.resize(20 + numbers.below(120), FILL);
        for _ in 0..60 {
            let word = ["SUBSCRIBE", "UNSUBSCRIBE"][numbers.below(2)];
            let command = format!("a {word} \"{}\"", some_name(&mut numbers));
            let after = compacted(&store);
            let used = store.area.len() - free_bytes(&store);
            assert!(after.area[used..].iter().all(|&byte| byte == 0), "seed {seed}");
            check_replies(&store, &after, &command);
            check_room(&after);
            with_holes += usize::from(after.records != store.records);
            if run(&mut store, &command) == Err(15) {
                refused_before += 1;
                done_after += usize::from(run(&mut after.clone(), &command) == Ok(()));
            }
            if numbers.below(20) == 0 {
                store = after;
            }
        }
        let after = compacted(&store);
        COMMANDS.into_iter().for_each(|command| check_replies(&store, &after, command));
        (0..OPTIONS).for_each(|option| assert_eq!(walked(&store, option), walked(&after, option)));
    }
    let counts = (with_holes, refused_before, done_after);
    assert!(with_holes > 2_000 && refused_before > 500 && done_after > 50, "{counts:?}");
}
