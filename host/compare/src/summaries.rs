//! Tables for the summary beside the records (document 02, W13): families of names that sort between a parent and its
//! children, deep names and full tables; edits of such names; and summaries that are wrong, too short or too long.

use formats::name;
use formats::name::MAX_LEVELS;
use formats::rows::{Flags, MAX_ROWS};
use second::records::MAX_AREA;
use second::Summary;

use crate::edit_series::in_pieces;
use crate::edits::{edit_command, some_row, SUBSCRIBE, UNSUBSCRIBE};
use crate::random::Random;
use crate::records::{extend, spare_number, Layout};
use crate::tables::rows_named;

/// Names of which one begins as another does. "!", " " and "-" sort before "/", so before the children of a name.
const STEMS: [&[u8]; 14] = [
    b"Foo", b"Foo x", b"Foo-x", b"Foo/Bar", b"Foo!", b"Foo0", b"a", b"a-", b"a--", b"a -", b"a/b",
    b"a/b-", b"INBOX", b"inbox-",
];
/// What names go on with.
const ENDS: [&[u8]; 10] = [b"", b"", b"/x", b"/x/y", b"/Bar", b"-", b" ", b"/-", b"-/x", b"/ /"];
/// What a name goes on with that lies beside a level of a deep name.
const BESIDE: [&[u8]; 4] = [b"-", b" ", b"-/x", b"/-"];
/// The most rows of a table that is not full.
const FEW: usize = 24;
/// Names `a-..-` of a full table, so many of which begin as the next one does.
const DASHES: usize = 50;
/// Spare records and free bytes of a table that takes more rows.
const ROOM_FOR: (usize, usize) = (12, 400);

/// A table that passes.
pub fn some_table(random: &mut Random) -> Layout {
    let names: Vec<Vec<u8>> = match random.below(100) {
        0 => dashed_names(),
        1 => deep_names(random),
        2 => wide_names(random),
        3..20 => chain(random),
        _ => (0..random.below(FEW)).map(|_| family_name(random)).collect(),
    };
    let mut rows =
        rows_named(random, names.into_iter().filter(|name| name::is_lawful(name)).collect());
    rows.iter_mut().for_each(|row| row.flags = some_flags(random, row.flags));
    rows.truncate(MAX_ROWS - random.below(2));
    let mut table = in_pieces(random, &rows);
    if random.percent(70) {
        let (records, bytes) = ROOM_FOR;
        let bytes = bytes.min(MAX_AREA - table.area.len());
        extend(&mut table, records, bytes, b'.');
    }
    table
}

/// What counts: more rows are remote, and more do not exist, than in other tables. A row with no inferiors keeps its
/// flags, since no row lies below it.
fn some_flags(random: &mut Random, flags: Flags) -> Flags {
    match random.below(5) {
        0 => Flags::SUBSCRIBED,
        1 if flags.has(Flags::EXISTS) => flags.with(Flags::REMOTE),
        2 if flags.has(Flags::EXISTS) => flags.with(Flags::REMOTE).with(Flags::SUBSCRIBED),
        _ => flags,
    }
}

/// A name of the families, or one level of a deep one.
pub fn family_name(random: &mut Random) -> Vec<u8> {
    if random.percent(10) {
        return vec!["d"; random.within(1..=MAX_LEVELS)].join("/").into_bytes();
    }
    let mut name = random.pick(&STEMS).to_vec();
    for _ in 0..random.below(3) {
        name.extend_from_slice(random.pick(&ENDS));
    }
    name
}

/// Every level of one deep name, and names beside some of them.
fn chain(random: &mut Random) -> Vec<Vec<u8>> {
    let depth = random.within(2..=MAX_LEVELS);
    let level = |count: usize| vec!["d"; count].join("/").into_bytes();
    let mut names: Vec<Vec<u8>> = (1..=depth).map(level).collect();
    for _ in 0..random.below(6) {
        let beside = level(random.within(1..=depth));
        names.push([beside.as_slice(), random.pick(&BESIDE)].concat());
    }
    names
}

/// 512 rows: each of fifty names `a-..-` is open while those of the others that begin with it are met, and has
/// children.
fn dashed_names() -> Vec<Vec<u8>> {
    let child = |at: usize| {
        let stem = format!("a{}", "-".repeat(at % DASHES));
        if at < DASHES {
            stem
        } else {
            format!("{stem}/{:02}", at / DASHES)
        }
    };
    (0..MAX_ROWS).map(|at| child(at).into_bytes()).collect()
}

/// 512 rows of up to fourteen levels, most levels of which are rows too.
fn deep_names(random: &mut Random) -> Vec<Vec<u8>> {
    let mut names: Vec<Vec<u8>> =
        (1..14).map(|depth| vec!["abb"; depth].join("/").into_bytes()).collect();
    while names.len() < MAX_ROWS {
        let parent = vec!["abb"; random.within(8..=13)].join("/");
        names.push(format!("{parent}/{:03}", names.len()).into_bytes());
    }
    names
}

/// 512 rows below few parents.
fn wide_names(random: &mut Random) -> Vec<Vec<u8>> {
    let parents = random.within(1..=40);
    let name = |at: usize| match at {
        _ if at < parents => format!("p{at:02}"),
        _ => format!("p{:02}/{at:03}", at % parents),
    };
    (0..MAX_ROWS).map(|at| name(at).into_bytes()).collect()
}

/// An edit: of a row, mostly of one below another, or of a name of the families.
pub fn some_edit(random: &mut Random, table: &Layout) -> Vec<u8> {
    let word = random.pick(&[SUBSCRIBE, UNSUBSCRIBE]);
    let (word, name) = match random.below(10) {
        0..3 => (UNSUBSCRIBE, some_row(random, table, |flags| flags == Flags::SUBSCRIBED)),
        3 => (word, some_row(random, table, |flags| flags.has(Flags::REMOTE))),
        4 => (word, some_row(random, table, |flags| flags.has(Flags::EXISTS))),
        5 => {
            (SUBSCRIBE, some_row(random, table, |_| true).and_then(|name| parent_of(random, &name)))
        }
        _ => (word, None),
    };
    let name = name.unwrap_or_else(|| family_name(random));
    edit_command(random, word, &name)
}

/// An ancestor of a name, with a row or without.
fn parent_of(random: &mut Random, name: &[u8]) -> Option<Vec<u8>> {
    let above: Vec<&[u8]> = name::ancestors(name).collect();
    above.get(random.below(above.len().max(1))).map(|name| name.to_vec())
}

/// What is done to a summary that is right.
#[derive(Clone, Copy, Debug, PartialEq, Eq)]
pub enum Damage {
    /// One of the four counts of a row, one more or one less.
    RowByOne,
    /// Any bit of the number of a row.
    RowBit,
    /// The number of one row is another row's.
    OtherRow,
    /// All numbers of rows are zero.
    Zero,
    /// The number of a spare record.
    Spare,
    /// Fewer numbers than rows.
    BelowRows,
    /// Fewer numbers than records, and enough for the rows.
    BelowRecords,
    /// More numbers than records.
    AboveRecords,
}

impl Damage {
    pub const ALL: [Damage; 8] = [
        Damage::RowByOne,
        Damage::RowBit,
        Damage::OtherRow,
        Damage::Zero,
        Damage::Spare,
        Damage::BelowRows,
        Damage::BelowRecords,
        Damage::AboveRecords,
    ];

    /// Does it to the summary of a table, as far as the table has what it is done to.
    pub fn apply(self, random: &mut Random, table: &mut Layout) {
        let Layout { records, count, summary, .. } = table;
        let rows = records.len().min(*count);
        let spare = records.len() - rows;
        match self {
            Damage::RowByOne if rows > 0 => {
                let at = random.below(rows);
                summary[at] = by_one(random, summary[at]);
            }
            Damage::RowBit if rows > 0 => {
                let at = random.below(rows);
                summary[at] = Summary::from_number(summary[at].number() ^ 1 << random.below(64));
            }
            Damage::OtherRow if rows > 0 => {
                summary[random.below(rows)] = summary[random.below(rows)]
            }
            Damage::Zero => summary[..rows].fill(Summary::default()),
            Damage::Spare if spare > 0 => {
                summary[rows + random.below(spare)] = spare_number(random.below(99))
            }
            Damage::BelowRows if rows > 0 => summary.truncate(random.below(rows)),
            Damage::BelowRecords => summary.truncate(rows + random.below(spare + 1)),
            Damage::AboveRecords => {
                let numbers = summary.len() + random.within(1..=3);
                summary.resize(numbers, spare_number(numbers));
            }
            _ => {}
        }
    }
}

/// One of the four counts, one more or one less, which may wrap around.
fn by_one(random: &mut Random, summary: Summary) -> Summary {
    let mut counts = [
        summary.subscribed_local,
        summary.subscribed_remote,
        summary.existing_local,
        summary.existing_remote,
    ];
    let by = if random.percent(50) { 1 } else { u16::MAX };
    let at = random.below(counts.len());
    counts[at] = counts[at].wrapping_add(by);
    let [subscribed_local, subscribed_remote, existing_local, existing_remote] = counts;
    Summary { subscribed_local, subscribed_remote, existing_local, existing_remote }
}
