//! Who may see which mailbox (document 02, W9): readers, sets of them, and tables that one reader sees
//! alike.

use formats::name;
use formats::readers::{Reader, Readers, MAX_READER};
use formats::rows::Flags;
use second::Record;

use crate::random::Random;
use crate::tables::{lawful_flags, level, NewRow};

/// Percent of the readers that are above 7.
const ABOVE: usize = 6;
/// What makes a name beside another, or below it.
const ENDS: [&[u8]; 7] = [b"/x", b"/x/y", b"/Foo", b"-x", b" ", b"0", b"/~"];

/// A reader, 0 to 7, and now and then a number that no reader has.
pub fn some_reader(random: &mut Random) -> u8 {
    if random.percent(ABOVE) {
        return *random.pick(&[&8, &9, &15, &16, &64, &128, &248, &255]);
    }
    lawful_reader(random)
}

pub fn lawful_reader(random: &mut Random) -> u8 {
    random.below(usize::from(MAX_READER) + 1) as u8
}

/// A set of readers: full, empty, of one or of all but one, of few, or any.
pub fn some_set(random: &mut Random) -> Readers {
    let one = 1 << lawful_reader(random);
    Readers::from_bits(match random.below(10) {
        0..3 => Readers::ALL.bits(),
        3 => Readers::NONE.bits(),
        4 | 5 => one,
        6 => !one,
        7 => random.byte() & random.byte(),
        _ => random.byte(),
    })
}

/// Gives each record, spare ones too, some set.
pub fn veil_records(random: &mut Random, records: &mut [Record]) {
    for record in records {
        record.readers = some_set(random).bits();
    }
}

/// Gives each row some set, and names a reader. From that one may be hidden what lies above other rows,
/// what takes no inferiors, or what is subscribed; or it sees either all of a row's kind or nothing.
pub fn veil(random: &mut Random, rows: &mut [NewRow]) -> Reader {
    let number = lawful_reader(random);
    let reader = Reader::all().nth(usize::from(number)).expect("one of eight");
    let names: Vec<Vec<u8>> = rows.iter().map(|row| row.name.clone()).collect();
    let veiled = random.below(6);
    for row in rows {
        row.readers = some_set(random);
        let is_above = || names.iter().any(|name| is_below(name, &row.name));
        match veiled {
            0 if is_above() => row.readers.remove(reader),
            0 => row.readers.add(reader),
            1 if row.flags.has(Flags::NO_INFERIORS) => row.readers.remove(reader),
            2 if row.flags.has(Flags::SUBSCRIBED) => row.readers.remove(reader),
            3 if random.percent(50) => row.readers = Readers::ALL,
            3 => row.readers = Readers::NONE,
            _ => {}
        }
    }
    reader
}

/// Another table that passes, of which a reader sees the same names with the same flags. The sets of
/// these differ in other readers; what is hidden from the reader is gone, is there in another way, or is
/// new.
pub fn seen_alike(random: &mut Random, rows: &[NewRow], reader: Reader) -> Vec<NewRow> {
    let (mut seen, hidden): (Vec<NewRow>, Vec<NewRow>) =
        rows.iter().cloned().partition(|row| row.readers.has(reader));
    for row in &mut seen {
        row.readers = some_set(random);
        row.readers.add(reader);
    }
    let mut others = Vec::new();
    for mut row in hidden {
        match random.below(5) {
            0 => continue,
            1 | 2 => row.flags = lawful_flags(random),
            3 => row.readers = some_set(random),
            _ => {}
        }
        others.push(row);
    }
    for _ in 0..random.below(5) {
        let name = name_beside(random, rows);
        let row = NewRow { flags: lawful_flags(random), readers: some_set(random), name };
        others.push(row);
    }
    others.iter_mut().for_each(|row| row.readers.remove(reader));
    with_others(seen, others)
}

/// The rows of a table that passes, and of the others those that a table with them may have.
pub fn with_others(seen: Vec<NewRow>, mut others: Vec<NewRow>) -> Vec<NewRow> {
    others.sort_by(|one, other| one.name.cmp(&other.name));
    others.dedup_by(|one, other| one.name == other.name);
    let is_childless = |row: &NewRow| row.flags.has(Flags::NO_INFERIORS);
    others.retain(|row| {
        let fits = |other: &NewRow| {
            other.name != row.name && !(is_childless(other) && is_below(&row.name, &other.name))
        };
        name::is_lawful(&row.name) && seen.iter().all(fits)
    });
    let mut rows = [seen.clone(), others].concat();
    rows.sort_by(|one, other| one.name.cmp(&other.name));
    let names: Vec<Vec<u8>> = rows.iter().map(|row| row.name.clone()).collect();
    for row in &mut rows {
        if names.iter().any(|name| is_below(name, &row.name)) {
            row.flags.remove(Flags::NO_INFERIORS);
        }
    }
    rows
}

fn is_below(name: &[u8], above: &[u8]) -> bool {
    name.starts_with(&name::descendant_prefix(above))
}

/// A level above one of the rows, a name below one or beside it, or a name of one level.
pub fn name_beside(random: &mut Random, rows: &[NewRow]) -> Vec<u8> {
    if rows.is_empty() || random.percent(20) {
        return level(random);
    }
    let name = &rows[random.below(rows.len())].name;
    let above: Vec<&[u8]> = name::ancestors(name).collect();
    if !above.is_empty() && random.percent(50) {
        return above[random.below(above.len())].to_vec();
    }
    [name.as_slice(), random.pick(&ENDS)].concat()
}
