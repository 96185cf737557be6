//! What is measured: tables of several sizes, in both forms, and the calls over them.

use compare::records::{extend, Layout};
use compare::tables::{table_bytes, NewRow};
use formats::name::MAX_NAME;
use formats::namespaces::Entry;
use formats::readers::Readers;
use formats::rows::Flags;
use second::Record;

/// What every deep name begins with, as `deep_name` makes it.
macro_rules! below_thirteen {
    () => {
        "abb/abb/abb/abb/abb/abb/abb/abb/abb/abb/abb/abb/abb/"
    };
}

/// Rows of the tables.
pub const SIZES: [usize; 4] = [64, 128, 256, 512];

/// What one measured call does.
#[derive(Clone, Copy)]
pub enum Call {
    Check,
    /// A command line without its CR LF, which changes nothing.
    Command(Command),
    /// A walk with this option byte.
    Walk(u8),
    Edit(Edit),
    /// Names moved together.
    Compaction,
    /// The summary counted afresh.
    Summary,
}

/// An edit of the rows.
#[derive(Clone, Copy)]
pub struct Edit {
    /// The command line without its CR LF.
    pub line: &'static str,
    /// What makes the rows again what they were, after each call; it is not measured.
    pub undo: Option<&'static str>,
    /// What it is refused with.
    pub refusal: Option<u8>,
    /// Whether the last of the records is spare.
    pub has_spare: bool,
}

/// What the proved library's time is also divided by: its own for something else over the same rows.
#[derive(Clone, Copy, PartialEq)]
pub enum Beside {
    /// The same call over the packed form.
    Packed,
    /// A LIST that lists nothing.
    Listing,
}

/// Of no mailbox here, so that nothing is listed.
pub const LISTING: &str = "a LIST \"\" nothing";

#[derive(Clone, Copy)]
pub enum Command {
    Text(&'static str),
    /// `LIST` with so many times the same pattern, behind a reference.
    Patterns {
        reference: Repeated,
        pattern: Repeated,
        count: usize,
    },
}

/// A text so many times, then its end.
#[derive(Clone, Copy)]
pub struct Repeated(pub &'static str, pub usize, pub &'static str);

const NO_REFERENCE: Repeated = Repeated("", 0, "");

#[derive(Clone, Copy, PartialEq)]
pub enum TableKind {
    /// Three levels of names, parents with and without a row, all kinds of flags.
    Tree,
    /// The same, of which every other row is hidden from one reader, who asks.
    Halved,
    /// Names of thirty "a" and a number, which come near to the pattern of "%a".
    ManyA,
    /// Names of sixty "a" and a number: as long as 512 names in one area can be.
    LongA,
    /// Names of fourteen levels, of which thirteen are "abb".
    Levels,
    /// The same with a row for each of the thirteen, so that every name lies below thirteen rows; all kinds of flags.
    Deep,
    /// Fifty names `a-..-`, each of which begins as the next one does, and names below them, so that fifty rows are
    /// open at once; all kinds of flags.
    Dashes,
    /// Names of sixteen levels, the first a number and the others "abb", all subscribed: no two rows share a level.
    OwnLevels,
}

#[derive(Clone, Copy, PartialEq)]
pub enum Form {
    Packed,
    Records,
}

pub struct Case {
    pub title: &'static str,
    pub table: TableKind,
    pub form: Form,
    pub call: Call,
}

pub const CASES: [Case; 31] = [
    packed_case("check of the table", Call::Check),
    text_case(r#"`LIST "" "*"`"#, r#"a LIST "" "*""#),
    records_case(
        r#"`LIST "" "*"`, half of the rows hidden"#,
        TableKind::Halved,
        Call::Command(Command::Text(r#"a LIST "" "*""#)),
    ),
    text_case(r#"`LIST "" "%"`"#, r#"a LIST "" "%""#),
    text_case(
        r#"`LIST (SUBSCRIBED RECURSIVEMATCH) "" "%"`"#,
        r#"a LIST (SUBSCRIBED RECURSIVEMATCH) "" "%""#,
    ),
    patterns_case("eight patterns of forty `*`", TableKind::Tree, Repeated("*", 40, ""), 8),
    patterns_case("`%a` twenty times, then `b`", TableKind::ManyA, Repeated("%a", 20, "b"), 1),
    patterns_case(
        "eight patterns of `%b*` seventy times",
        TableKind::Levels,
        Repeated("%b*", 70, ""),
        8,
    ),
    patterns_case("`*%/%b`", TableKind::Levels, Repeated("*%/%b", 1, ""), 1),
    patterns_case("`%*/b`", TableKind::Levels, Repeated("%*/b", 1, ""), 1),
    patterns_case(
        "eight of `*a%b` fifty times, then `*`",
        TableKind::Levels,
        Repeated("*a%b", 50, "*"),
        8,
    ),
    patterns_case(
        "eight of `a*` a hundred times, then `b*`",
        TableKind::LongA,
        Repeated("a*", 100, "b*"),
        8,
    ),
    patterns_case(
        "eight of `*/%` sixty times, then `/c*`",
        TableKind::Levels,
        Repeated("*/%", 60, "/c*"),
        8,
    ),
    records_case(
        "eight behind a reference: `*a%` 83 times, then `/cb*`",
        TableKind::LongA,
        Call::Command(Command::Patterns {
            reference: Repeated("*a%", 20, ""),
            pattern: Repeated("*a%", 63, "/cb*"),
            count: 8,
        }),
    ),
    text_case(r#"`LIST "" "*" RETURN (CHILDREN)`"#, r#"a LIST "" "*" RETURN (CHILDREN)"#),
    text_case("`NAMESPACE`", "a NAMESPACE"),
    packed_case("a whole walk", Call::Walk(0)),
    records_case("check of records", TableKind::Tree, Call::Check),
    records_case("check of records, fourteen levels", TableKind::Deep, Call::Check),
    records_case("check of records, fifty names `a-..-`", TableKind::Dashes, Call::Check),
    records_case("a summary counted afresh", TableKind::Tree, Call::Summary),
    records_case("a whole walk over records", TableKind::Tree, Call::Walk(0)),
    edit_case(
        "`SUBSCRIBE`, a flag set",
        undone_edit(
            r#"a SUBSCRIBE "Customer 00/Folder 2""#,
            r#"a UNSUBSCRIBE "Customer 00/Folder 2""#,
            false,
        ),
    ),
    edit_case(
        "`SUBSCRIBE`, a row inserted",
        undone_edit(
            r#"a SUBSCRIBE "Customer 00/Folder 9""#,
            r#"a UNSUBSCRIBE "Customer 00/Folder 9""#,
            true,
        ),
    ),
    edit_case(
        "`UNSUBSCRIBE`, a row removed",
        undone_edit(
            r#"a UNSUBSCRIBE "Customer 00/Folder 4""#,
            r#"a SUBSCRIBE "Customer 00/Folder 4""#,
            false,
        ),
    ),
    deep_edit_case(
        "`SUBSCRIBE`, a flag set below thirteen rows",
        undone_edit(
            concat!("a SUBSCRIBE ", below_thirteen!(), "020"),
            concat!("a UNSUBSCRIBE ", below_thirteen!(), "020"),
            false,
        ),
    ),
    deep_edit_case(
        "`SUBSCRIBE`, a row inserted below thirteen rows",
        undone_edit(
            concat!("a SUBSCRIBE ", below_thirteen!(), "new"),
            concat!("a UNSUBSCRIBE ", below_thirteen!(), "new"),
            true,
        ),
    ),
    deep_edit_case(
        "`UNSUBSCRIBE`, a row removed below thirteen rows",
        undone_edit(
            concat!("a UNSUBSCRIBE ", below_thirteen!(), "018"),
            concat!("a SUBSCRIBE ", below_thirteen!(), "018"),
            false,
        ),
    ),
    edit_case("`SUBSCRIBE`, refused with 14", refused_edit(r#"a SUBSCRIBE "Customer 00//x""#, 14)),
    edit_case("`SUBSCRIBE`, refused with 15", refused_edit(r#"a SUBSCRIBE "Customer 00/x""#, 15)),
    records_case("compaction", TableKind::Tree, Call::Compaction),
];

/// The walk with the most commands: each of the fifteen levels above every row is asked below, and no other row shares
/// it. No bound holds for it.
pub const DEEP_WALK: Case =
    records_case("a walk over sixteen levels, all subscribed", TableKind::OwnLevels, Call::Walk(0));

const fn packed_case(title: &'static str, call: Call) -> Case {
    Case { title, table: TableKind::Tree, form: Form::Packed, call }
}

const fn records_case(title: &'static str, table: TableKind, call: Call) -> Case {
    Case { title, table, form: Form::Records, call }
}

const fn text_case(title: &'static str, line: &'static str) -> Case {
    records_case(title, TableKind::Tree, Call::Command(Command::Text(line)))
}

const fn patterns_case(
    title: &'static str,
    table: TableKind,
    pattern: Repeated,
    count: usize,
) -> Case {
    let patterns = Command::Patterns { reference: NO_REFERENCE, pattern, count };
    records_case(title, table, Call::Command(patterns))
}

const fn edit_case(title: &'static str, edit: Edit) -> Case {
    records_case(title, TableKind::Tree, Call::Edit(edit))
}

const fn deep_edit_case(title: &'static str, edit: Edit) -> Case {
    records_case(title, TableKind::Deep, Call::Edit(edit))
}

const fn undone_edit(line: &'static str, undo: &'static str, has_spare: bool) -> Edit {
    Edit { line, undo: Some(undo), refusal: None, has_spare }
}

const fn refused_edit(line: &'static str, number: u8) -> Edit {
    Edit { line, undo: None, refusal: Some(number), has_spare: false }
}

const BUFFER: usize = 65_536;
/// From whom the rows of the halved table are hidden.
const HALF_READER: u8 = 1;

impl Case {
    /// Who asks.
    pub fn reader(&self) -> u8 {
        match self.table {
            TableKind::Halved => HALF_READER,
            _ => 0,
        }
    }

    /// Commands are answered over records alone. Names of sixteen levels of their own have no packed form of 512 rows.
    pub fn beside(&self) -> Option<Beside> {
        match (self.form, self.call) {
            _ if self.table == TableKind::OwnLevels => None,
            (Form::Records, Call::Edit(_) | Call::Compaction) => Some(Beside::Listing),
            (Form::Records, Call::Check | Call::Walk(_)) => Some(Beside::Packed),
            _ => None,
        }
    }

    /// More bytes than any answer or list of names has. A walk fills all of its buffers with zeros, so they are not longer
    /// than they need be.
    pub fn buffer_size(&self) -> usize {
        match self.table {
            TableKind::OwnLevels => 4 * BUFFER,
            _ => BUFFER,
        }
    }

    /// The records of so many rows. For an insertion the last of them is spare; edits have free bytes
    /// for a name after all names. For a compaction the names have holes of many lengths before them.
    pub fn layout(&self, rows: usize) -> Layout {
        let edit = match self.call {
            Call::Edit(edit) => edit,
            Call::Compaction => return self.table.layout(rows, |place| HOLES[place % HOLES.len()]),
            _ => return self.table.layout(rows, |_| 1),
        };
        let mut layout = self.table.layout(rows - usize::from(edit.has_spare), |_| 1);
        let spare = rows - layout.records.len();
        extend(&mut layout, spare, MAX_NAME, UNUSED);
        layout
    }
}

/// A command line with its CR LF.
pub fn line_of(text: &str) -> Vec<u8> {
    format!("{text}\r\n").into_bytes()
}

impl Command {
    pub fn line(self) -> Vec<u8> {
        let text = match self {
            Command::Text(text) => text.to_string(),
            Command::Patterns { reference, pattern, count } => {
                let patterns = vec![pattern.text(); count].join(" ");
                format!("a LIST \"{}\" ({patterns})", reference.text())
            }
        };
        line_of(&text)
    }

    /// The canonical patterns, where they are made of repeated texts.
    pub fn patterns(self) -> Option<Vec<Vec<u8>>> {
        match self {
            Command::Text(_) => None,
            Command::Patterns { reference, pattern, count } => {
                Some(vec![(reference.text() + &pattern.text()).into_bytes(); count])
            }
        }
    }
}

impl Repeated {
    fn text(self) -> String {
        let Repeated(unit, times, end) = self;
        unit.repeat(times) + end
    }
}

/// How far apart in the rows two names are that lie side by side in the area, unless it divides the number of rows. It is
/// a prime number.
const STRIDE: usize = 37;
/// What lies before each name and is no name's.
const UNUSED: u8 = 0;
/// Lengths of holes as removals leave them, in turn: of no name, of short ones and of a long one.
const HOLES: [usize; 8] = [0, 23, 0, 0, 11, 0, 40, 0];

impl TableKind {
    /// The packed form.
    pub fn bytes(self, rows: usize) -> Vec<u8> {
        table_bytes(&self.rows(rows))
    }

    /// The same rows as records, with so many unused bytes before each name as `unused` says of its place.
    pub fn layout(self, rows: usize, unused: impl Fn(usize) -> usize) -> Layout {
        laid_out(&self.rows(rows), unused)
    }

    pub fn rows(self, count: usize) -> Vec<NewRow> {
        let row = |at| {
            let (name, flags) = self.row(at);
            NewRow::new(flags, name.into_bytes())
        };
        let mut rows: Vec<NewRow> = (0..count).map(row).collect();
        rows.sort_by(|one, other| one.name.cmp(&other.name));
        if self == TableKind::Halved {
            let others = Readers::from_bits(!(1 << HALF_READER));
            rows.iter_mut().step_by(2).for_each(|row| row.readers = others);
        }
        rows
    }

    fn row(self, at: usize) -> (String, Flags) {
        match self {
            TableKind::Tree | TableKind::Halved => tree_row(at),
            TableKind::ManyA => (format!("{}{at:03}", "a".repeat(30)), Flags::EXISTS),
            TableKind::LongA => (format!("{}{at:03}", "a".repeat(60)), Flags::EXISTS),
            TableKind::Levels => (deep_name(at), Flags::EXISTS),
            TableKind::Deep if at < DEPTH => (vec!["abb"; at + 1].join("/"), some_flags(at)),
            TableKind::Deep => (deep_name(at), some_flags(at)),
            TableKind::Dashes if at < DASHES => (dashed_name(at), some_flags(at)),
            TableKind::Dashes => {
                (format!("{}/{:02}", dashed_name(at % DASHES), at / DASHES), some_flags(at))
            }
            TableKind::OwnLevels => (format!("{at:03}{}", "/abb".repeat(15)), Flags::SUBSCRIBED),
        }
    }
}

/// Rows as records: the names lie in another order, with unused bytes before each, so many as `unused` says of its place
/// in that order.
pub fn laid_out(rows: &[NewRow], unused: impl Fn(usize) -> usize) -> Layout {
    let stride = if rows.len().is_multiple_of(STRIDE) { 1 } else { STRIDE };
    let mut records = vec![Record::default(); rows.len()];
    let mut area = Vec::new();
    for place in 0..rows.len() {
        let at = place * stride % rows.len();
        area.resize(area.len() + unused(place), UNUSED);
        records[at] = rows[at].record_at(area.len());
        area.extend_from_slice(&rows[at].name);
    }
    Layout::counted(records, rows.len(), area)
}

/// Levels above the last one of a deep name.
const DEPTH: usize = 13;
/// Names that begin as one another do.
const DASHES: usize = 50;

fn deep_name(at: usize) -> String {
    format!("{}{at:03}", "abb/".repeat(DEPTH))
}

fn dashed_name(dashes: usize) -> String {
    format!("a{}", "-".repeat(dashes))
}

/// Of 32 rows, one is a customer, seven are its folders and 24 lie in folders, some of which have
/// no row of their own.
fn tree_row(at: usize) -> (String, Flags) {
    let customer = format!("Customer {:02}", at / 32);
    let name = match at % 32 {
        0 => customer,
        folder @ 1..8 => format!("{customer}/Folder {folder}"),
        rest => format!("{customer}/Folder {}/Letters of {rest}", rest % 8 + 1),
    };
    (name, some_flags(at))
}

/// Flags that differ from row to row.
fn some_flags(at: usize) -> Flags {
    Flags::from_bits(match at % 7 {
        0 | 1 => Flags::EXISTS.bits() | Flags::SUBSCRIBED.bits(),
        2 => Flags::EXISTS.bits() | Flags::MARKED.bits() | Flags::SENT.bits(),
        3 => Flags::EXISTS.bits() | Flags::REMOTE.bits(),
        4 => Flags::SUBSCRIBED.bits(),
        _ => Flags::EXISTS.bits(),
    })
}

/// Four entries of each class.
pub fn namespaces() -> Vec<u8> {
    let mut list = Vec::new();
    for class in 0..3 {
        for entry in 0..4 {
            let prefix = format!("#class{class}/entry{entry}/");
            let entry = Entry { class, prefix: prefix.as_bytes(), delimiter: Some(b'/') };
            list.extend(entry.to_bytes().unwrap_or_default());
        }
    }
    list
}
