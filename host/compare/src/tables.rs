//! Tables that pass: names with shared parents, bytes below "/", quotes and INBOX spellings.

use formats::name::{self, INBOX, MAX_LEVELS, MAX_NAME};
use formats::readers::Readers;
use formats::rows::{Flags, Row};
use second::Record;

use crate::random::Random;

/// A row that owns its name.
#[derive(Clone)]
pub struct NewRow {
    pub flags: Flags,
    pub readers: Readers,
    pub name: Vec<u8>,
}

impl NewRow {
    /// A row that all readers see.
    pub fn new(flags: Flags, name: Vec<u8>) -> NewRow {
        NewRow { flags, readers: Readers::ALL, name }
    }

    /// The record of the row, with its name at a place.
    pub fn record_at(&self, start: usize) -> Record {
        let (flags, readers) = (self.flags.bits(), self.readers.bits());
        Record { flags, start: start as u16, len: self.name.len() as u8, readers }
    }
}

/// Levels that sort on both sides of "/", that need quotes, and spellings of INBOX.
const LEVELS: [&[u8]; 30] = [
    b"Foo", b"Foo-x", b"Foo x", b"Foo.x", b"Foo0", b"Foo!", b"Bar", b"Baz", b"a", b"b", b"A",
    b"INBOX", b"inbox", b"Inbox", b"INBOXX", b"Sent", b"q\"q", b"b\\s", b"\"", b"\\", b" ", b"!",
    b"~", b"(x)", b"a]", b"+", b"{3}", b"100", b"moo", b"MOO",
];

/// Percent of the rows that are subscribed and do not exist.
const NON_EXISTENT: usize = 20;
/// The other flags, and in how many of a hundred existing rows each is set.
const FLAG_CHANCES: [(Flags, usize); 13] = [
    (Flags::SUBSCRIBED, 45),
    (Flags::REMOTE, 25),
    (Flags::NO_SELECT, 10),
    (Flags::NO_INFERIORS, 15),
    (Flags::MARKED, 15),
    (Flags::UNMARKED, 15),
    (Flags::ALL, 6),
    (Flags::ARCHIVE, 6),
    (Flags::DRAFTS, 6),
    (Flags::FLAGGED, 6),
    (Flags::JUNK, 6),
    (Flags::SENT, 6),
    (Flags::TRASH, 6),
];

/// A table that passes, with at most `count` rows.
pub fn good_table(random: &mut Random, count: usize) -> Vec<NewRow> {
    let mut names: Vec<Vec<u8>> = Vec::new();
    for _ in 0..count {
        let name = good_name(random, &names);
        names.push(name);
    }
    rows_named(random, names)
}

/// Rows with these names and flags that pass.
pub fn rows_named(random: &mut Random, mut names: Vec<Vec<u8>>) -> Vec<NewRow> {
    names.sort();
    names.dedup();
    let row = |name| NewRow::new(lawful_flags(random), name);
    let mut rows: Vec<NewRow> = names.into_iter().map(row).collect();
    allow_inferiors(&mut rows);
    rows
}

/// The bytes of rows. A name has at most 255 bytes.
pub fn table_bytes(rows: &[NewRow]) -> Vec<u8> {
    let bytes = |NewRow { flags, readers, name }: &NewRow| {
        Row { flags: *flags, readers: *readers, name }.to_bytes()
    };
    rows.iter().filter_map(bytes).flatten().collect()
}

/// The names of the rows and of the levels above them.
pub fn names_of(rows: &[NewRow]) -> Vec<Vec<u8>> {
    let mut names: Vec<Vec<u8>> = Vec::new();
    for row in rows {
        names.extend(name::ancestors(&row.name).map(<[u8]>::to_vec));
        names.push(row.name.clone());
    }
    names
}

/// One level of a name, without "/".
pub fn level(random: &mut Random) -> Vec<u8> {
    if random.percent(85) {
        return random.pick(&LEVELS).to_vec();
    }
    let length = random.within(1..=12);
    let byte = |_| match b' ' + random.below(95) as u8 {
        b'%' | b'*' | b'/' => b'x',
        byte => byte,
    };
    (0..length).map(byte).collect()
}

/// Flags that pass where no row lies below.
pub fn lawful_flags(random: &mut Random) -> Flags {
    if random.percent(NON_EXISTENT) {
        return Flags::SUBSCRIBED;
    }
    let mut flags = Flags::EXISTS;
    for (flag, percent) in FLAG_CHANCES {
        if random.percent(percent) && !(flag == Flags::UNMARKED && flags.has(Flags::MARKED)) {
            flags.add(flag);
        }
    }
    flags
}

/// A new name, below one of the names there are or beside them.
fn good_name(random: &mut Random, names: &[Vec<u8>]) -> Vec<u8> {
    let mut name = if !names.is_empty() && random.percent(60) {
        let parent = &names[random.below(names.len())];
        [parent, b"/".as_slice(), &level(random)].concat()
    } else {
        level(random)
    };
    while random.percent(25) {
        name = [name, b"/".to_vec(), level(random)].concat();
    }
    spell_inbox(&mut name);
    let fits = name.len() <= MAX_NAME && name::ancestors(&name).count() < MAX_LEVELS;
    if fits {
        name
    } else {
        b"Fallback".to_vec()
    }
}

fn spell_inbox(name: &mut [u8]) {
    let first_level = name.split_mut(|&byte| byte == b'/').next();
    if let Some(level) = first_level.filter(|level| level.eq_ignore_ascii_case(INBOX)) {
        level.copy_from_slice(INBOX);
    }
}

/// Takes no inferiors from every row that has a row below it.
fn allow_inferiors(rows: &mut [NewRow]) {
    let names: Vec<Vec<u8>> = rows.iter().map(|row| row.name.clone()).collect();
    for row in rows {
        let prefix = name::descendant_prefix(&row.name);
        if names.iter().any(|name| name.starts_with(&prefix)) {
            row.flags.remove(Flags::NO_INFERIORS);
        }
    }
}
