//! Tables and namespace lists with something wrong, or nearly so.

use formats::name::{MAX_LEVELS, MAX_NAME};
use formats::namespaces::Entry;
use formats::rows::Flags;
use second::namespaces::{CLASSES, MAX_ENTRIES_A_CLASS, MAX_PREFIX};

use crate::random::Random;
use crate::tables::{lawful_flags, level, table_bytes, NewRow};

/// Bytes on both sides of what a name may hold.
const ODD_BYTES: [u8; 10] = [0x00, 0x1F, 0x20, 0x7E, 0x7F, 0x80, 0xFF, b'%', b'*', b'/'];
const INBOX_SPELLINGS: [&[u8]; 6] =
    [b"inbox", b"Inbox", b"INBOX", b"inbox/x", b"Inbox/x/y", b"inboxx"];

const ODD_DELIMITERS: [u8; 5] = [b'"', b'\\', b'!', b'~', b'.'];

/// What can be wrong with rows; one more number stands for bytes that are no rows.
const DAMAGES: usize = 9;

/// The bytes of a table after one damage. Some damages leave a table that passes.
pub fn damaged_table(random: &mut Random, mut rows: Vec<NewRow>) -> Vec<u8> {
    let at = damaged_place(random, &mut rows);
    match random.below(DAMAGES + 1) {
        DAMAGES => damaged_bytes(random, table_bytes(&rows)),
        damage => {
            damage_row(random, &mut rows, at, damage);
            table_bytes(&rows)
        }
    }
}

/// Rows after one damage.
pub fn damaged_rows(random: &mut Random, mut rows: Vec<NewRow>) -> Vec<NewRow> {
    let at = damaged_place(random, &mut rows);
    let damage = random.below(DAMAGES);
    damage_row(random, &mut rows, at, damage);
    rows
}

/// The number of a row, of which there is one more.
fn damaged_place(random: &mut Random, rows: &mut Vec<NewRow>) -> usize {
    rows.push(NewRow::new(lawful_flags(random), b"~~~".to_vec()));
    random.below(rows.len())
}

fn damage_row(random: &mut Random, rows: &mut Vec<NewRow>, at: usize, damage: usize) {
    match damage {
        0..3 => rows[at].flags = odd_flags(random, rows[at].flags),
        3..6 => {
            rows[at].name = odd_name(random, &rows[at].name);
            if random.percent(80) {
                rows.sort_by(|one, other| one.name.cmp(&other.name));
            }
        }
        6 => add_row_below(random, rows, at),
        7 => {
            let other = random.below(rows.len());
            rows.swap(at, other);
        }
        _ => rows.insert(at, rows[at].clone()),
    }
}

/// A row below another, or beside it, whatever that one's flags are.
fn add_row_below(random: &mut Random, rows: &mut Vec<NewRow>, at: usize) {
    if rows[at].flags.has(Flags::EXISTS) {
        rows[at].flags.add(Flags::NO_INFERIORS);
    }
    let end = random.pick(&[b"/x".as_slice(), b"/x/y", b"-x", b"0"]);
    let name = [rows[at].name.as_slice(), end].concat();
    rows.push(NewRow::new(Flags::SUBSCRIBED, name));
    rows.sort_by(|one, other| one.name.cmp(&other.name));
}

/// One byte flipped, added, taken away, or the end cut off.
pub fn damaged_bytes(random: &mut Random, mut bytes: Vec<u8>) -> Vec<u8> {
    if bytes.is_empty() {
        return vec![random.byte()];
    }
    let at = random.below(bytes.len());
    match random.below(4) {
        0 => bytes[at] ^= 1 << random.below(8),
        1 => bytes.insert(at, random.byte()),
        2 => drop(bytes.remove(at)),
        _ => bytes.truncate(at),
    }
    bytes
}

/// A namespace list, mostly one that passes; numbers of entries and lengths of prefixes reach
/// one over what does.
pub fn namespace_list(random: &mut Random) -> Vec<u8> {
    let mut list = Vec::new();
    for class in 0..CLASSES {
        let count = match random.below(100) {
            0..5 => MAX_ENTRIES_A_CLASS + 1,
            5..30 => MAX_ENTRIES_A_CLASS,
            _ => random.below(MAX_ENTRIES_A_CLASS),
        };
        for _ in 0..count {
            let prefix = namespace_prefix(random);
            let delimiter = match random.below(100) {
                0..20 => None,
                20..40 => Some(ODD_DELIMITERS[random.below(ODD_DELIMITERS.len())]),
                40..42 => Some(random.byte()),
                _ => Some(b'/'),
            };
            list.extend(Entry { class, prefix: &prefix, delimiter }.to_bytes().unwrap_or_default());
        }
    }
    if random.percent(25) {
        damaged_bytes(random, list)
    } else {
        list
    }
}

fn namespace_prefix(random: &mut Random) -> Vec<u8> {
    match random.below(100) {
        0..20 => Vec::new(),
        20..40 => vec![b'p'; random.within(MAX_PREFIX - 20..=MAX_PREFIX)],
        40..42 => vec![b'p'; MAX_PREFIX + 1],
        42..50 => b"%*".to_vec(),
        _ => [b"#", level(random).as_slice(), b"/"].concat(),
    }
}

fn odd_flags(random: &mut Random, flags: Flags) -> Flags {
    let bits = flags.bits();
    Flags::from_bits(match random.below(6) {
        0 => 0,
        1 => bits ^ 1 << random.below(16),
        2 => bits | Flags::MARKED.bits() | Flags::UNMARKED.bits(),
        3 => bits & !Flags::EXISTS.bits(),
        4 => bits | random.pick(&[&0x0080, &0x8000]),
        _ => u16::from_be_bytes([random.byte(), random.byte()]),
    })
}

pub fn odd_name(random: &mut Random, name: &[u8]) -> Vec<u8> {
    match random.below(12) {
        0 => Vec::new(),
        1 => [name, b"/"].concat(),
        2 => [b"/", name].concat(),
        3 => [name, b"//x"].concat(),
        4 => random.pick(&INBOX_SPELLINGS).to_vec(),
        5 => vec![b'~'; random.within(MAX_NAME - 1..=MAX_NAME + 2)],
        6 => vec![b"~".as_slice(); random.within(MAX_LEVELS - 1..=MAX_LEVELS + 2)].join(&b'/'),
        _ => {
            let mut name = name.to_vec();
            let at = random.below(name.len());
            name[at] = ODD_BYTES[random.below(ODD_BYTES.len())];
            name
        }
    }
}
