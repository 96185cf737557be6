//! Records over an area: names in any order of their bytes, unused bytes between them with anything
//! in them, spare records, and layouts with something wrong.

use std::ops::Range;

use formats::name;
use second::records::{Record, MAX_AREA};
use second::{Store, Summary};

use crate::damage::damaged_rows;
use crate::random::Random;
use crate::tables::{level, rows_named, NewRow};

/// What is lent of a table of records.
pub type Layout = Store;

/// Bytes that lie side by side in an area, and the rows whose names lie in them, by number and place.
struct Piece {
    bytes: Vec<u8>,
    names: Vec<(usize, usize)>,
}

/// Percent of the places between two names that have unused bytes, where some have.
const UNUSED: usize = 40;
/// The most that a start or a length can say.
const LAST_START: usize = u16::MAX as usize;
const LONGEST: u8 = u8::MAX;

/// Records over an area with a summary that is right as far as there are rows, so that it is no reason to be
/// refused. The numbers of spare records hold anything.
pub fn summarized(records: Vec<Record>, count: usize, area: Vec<u8>) -> Layout {
    let mut layout = Layout::counted(records, count, area);
    let spare = layout.summary.iter_mut().enumerate().skip(count);
    spare.for_each(|(at, number)| *number = spare_number(at));
    layout
}

/// What the number of a spare record holds.
pub fn spare_number(at: usize) -> Summary {
    Summary::from_number((at as u64 + 1).wrapping_mul(0x9E37_79B9_7F4A_7C15))
}

/// Adds spare records and bytes, with numbers for the records.
pub fn extend(layout: &mut Layout, records: usize, bytes: usize, byte: u8) {
    layout.records.resize(layout.records.len() + records, Record::default());
    layout.summary.resize(layout.records.len(), spare_number(records));
    layout.area.resize(layout.area.len() + bytes, byte);
}

/// Makes so many of the records rows, with the summary of these.
pub fn set_count(layout: &mut Layout, count: usize) {
    if layout.count != count {
        layout.count = count;
        layout.recount();
    }
}

/// A layout of the rows of a good table, or of nearly these: right, with a damaged row, with an
/// overlap, or damaged.
pub fn some_layout(random: &mut Random, rows: &[NewRow]) -> Layout {
    match random.below(10) {
        0..3 => laid_out(random, rows),
        3 => {
            let rows = damaged_rows(random, rows.to_vec());
            laid_out(random, &rows)
        }
        4..7 => overlapping(random, rows),
        _ => damaged_layout(random, rows),
    }
}

/// The rows, laid out in some lawful way.
pub fn laid_out(random: &mut Random, rows: &[NewRow]) -> Layout {
    let piece =
        |(at, row): (usize, &NewRow)| Piece { bytes: row.name.clone(), names: vec![(at, 0)] };
    let pieces = rows.iter().enumerate().map(piece).collect();
    of_pieces(random, rows, pieces)
}

/// A layout after one damage. Some damages leave one that passes.
pub fn damaged_layout(random: &mut Random, rows: &[NewRow]) -> Layout {
    let mut layout = laid_out(random, rows);
    match random.below(10) {
        0 | 1 => damage_area(random, &mut layout.area),
        2 | 3 => layout.count = odd_count(random, &layout),
        _ if layout.count > 0 => damage_records(random, &mut layout),
        _ => {}
    }
    summarized(layout.records, layout.count, layout.area)
}

/// The end cut off, nothing left, filled up to the most there may be or one more, or one bit flipped.
fn damage_area(random: &mut Random, area: &mut Vec<u8>) {
    match random.below(4) {
        0 => area.truncate(area.len().saturating_sub(random.within(1..=2))),
        1 => area.clear(),
        2 => area.resize(MAX_AREA + random.below(2), random.byte()),
        _ if area.is_empty() => area.push(random.byte()),
        _ => {
            let at = random.below(area.len());
            area[at] ^= 1 << random.below(8);
        }
    }
}

/// Two rows changed for each other, one of them twice, or one with an odd place.
fn damage_records(random: &mut Random, layout: &mut Layout) {
    let Layout { records, count, area, .. } = layout;
    let (one, other) = (random.below(*count), random.below(*count));
    match random.below(6) {
        0 => records.swap(one, other),
        1 => {
            records.insert(other, records[one]);
            *count += 1;
        }
        _ => records[one] = odd_record(random, records[one], area.len()),
    }
}

/// Bytes in which two names lie, one at a place and another in some of the same bytes or beside it.
struct Shared {
    bytes: Vec<u8>,
    host: usize,
    guest: Range<usize>,
}

/// Rows that pass, two of which have names that share bytes of the area, or lie side by side. What is
/// wrong with the table is the overlap alone, where the new name is lawful.
pub fn overlapping(random: &mut Random, rows: &[NewRow]) -> Layout {
    let mut names: Vec<Vec<u8>> = rows.iter().map(|row| row.name.clone()).collect();
    if names.is_empty() {
        names.push(b"Foo".to_vec());
    }
    let host = names[random.below(names.len())].clone();
    let Shared { bytes, host: host_place, guest: guest_place } = lawfully_shared(random, &host);
    let guest = bytes[guest_place.clone()].to_vec();
    names.push(guest.clone());
    let rows = rows_named(random, names);
    let number = |name: &[u8]| rows.iter().position(|row| row.name == name);
    let places = [(number(&guest), guest_place.start), (number(&host), host_place)];
    let both = places.into_iter().filter_map(|(row, place)| Some((row?, place))).collect();
    let mut pieces = vec![Piece { bytes, names: both }];
    for (at, row) in rows.iter().enumerate() {
        if row.name != host && row.name != guest {
            pieces.push(Piece { bytes: row.name.clone(), names: vec![(at, 0)] });
        }
    }
    of_pieces(random, &rows, pieces)
}

/// Shared bytes whose second name is lawful too, unless that does not come about in some tries.
fn lawfully_shared(random: &mut Random, host: &[u8]) -> Shared {
    let mut shared = shared_bytes(random, host);
    for _ in 0..8 {
        if name::is_lawful(&shared.bytes[shared.guest.clone()]) {
            break;
        }
        shared = shared_bytes(random, host);
    }
    shared
}

/// Another name that begins in the name, mostly in its last byte; that ends in it, mostly in its first
/// byte; or that lies in it. One that shares no byte lies side by side with it.
fn shared_bytes(random: &mut Random, host: &[u8]) -> Shared {
    let shared = if random.percent(60) { 1 } else { random.below(host.len() + 1) };
    let added = level(random);
    match random.below(5) {
        0 | 1 => {
            let bytes = [host, &added].concat();
            Shared { host: 0, guest: host.len() - shared..bytes.len(), bytes }
        }
        2 | 3 => {
            let bytes = [&added, host].concat();
            Shared { bytes, host: added.len(), guest: 0..added.len() + shared }
        }
        _ => {
            let start = random.below(host.len());
            let end = random.within(start + 1..=host.len());
            Shared { bytes: host.to_vec(), host: 0, guest: start..end }
        }
    }
}

/// Puts the pieces into an area, in some order, with unused bytes or without, and adds spare records.
fn of_pieces(random: &mut Random, rows: &[NewRow], mut pieces: Vec<Piece>) -> Layout {
    match random.below(4) {
        0 => {}
        1 => pieces.reverse(),
        _ => random.shuffle(&mut pieces),
    }
    let unused = if random.percent(70) { UNUSED } else { 0 };
    let mut records = vec![Record::default(); rows.len()];
    let mut area = Vec::new();
    for piece in pieces {
        if random.percent(unused) {
            push_unused(&mut area, random, rows);
        }
        for (at, place) in piece.names {
            records[at] = rows[at].record_at(area.len() + place);
        }
        area.extend_from_slice(&piece.bytes);
    }
    if random.percent(unused) {
        push_unused(&mut area, random, rows);
    }
    if random.percent(40) {
        push_spare(random, &mut records);
    }
    summarized(records, rows.len(), area)
}

/// Unused bytes: anything, a copy of a name, or a byte that no name has.
fn push_unused(area: &mut Vec<u8>, random: &mut Random, rows: &[NewRow]) {
    match random.below(4) {
        0 if !rows.is_empty() => area.extend_from_slice(&rows[random.below(rows.len())].name),
        1 => area.push(*random.pick(&[&0, &b'/', &b'%', &0xFF])),
        _ => (0..random.within(1..=6)).for_each(|_| area.push(random.byte())),
    }
}

/// Records that are not looked at: anything, copies of rows, and records past every area.
fn push_spare(random: &mut Random, records: &mut Vec<Record>) {
    let rows = records.len();
    for _ in 0..random.within(1..=4) {
        let spare = match random.below(3) {
            0 if rows > 0 => records[random.below(rows)],
            1 => Record { flags: u16::MAX, start: u16::MAX, len: LONGEST, readers: u8::MAX },
            _ => {
                let number =
                    |random: &mut Random| u16::from_be_bytes([random.byte(), random.byte()]);
                let (flags, start, len) = (number(random), number(random), random.byte());
                Record { flags, start, len, readers: start as u8 }
            }
        };
        records.push(spare);
    }
}

/// Fewer rows, or spare ones too, or more than there are records, in low bits or in high ones.
fn odd_count(random: &mut Random, layout: &Layout) -> usize {
    let records = layout.records.len();
    match random.below(6) {
        0 => random.below(layout.count + 1),
        1 => records,
        2 => records + 1,
        3 => usize::MAX - random.below(records + 2),
        _ => layout.count + (1 << random.within(9..=63)),
    }
}

/// A record whose name lies elsewhere, by a byte or by far, or whose end would wrap around.
fn odd_record(random: &mut Random, record: Record, area: usize) -> Record {
    let Record { flags, start, len, .. } = record;
    let length = usize::from(len);
    let place = |start: usize| (start & LAST_START) as u16;
    match random.below(12) {
        0 => Record { start: start.wrapping_add(1), ..record },
        1 => Record { start: start.wrapping_sub(1), ..record },
        2 => Record { len: len.wrapping_add(1), ..record },
        3 => Record { len: len.wrapping_sub(1), ..record },
        4 => Record { start: start.wrapping_sub(1), len: len.wrapping_add(1), ..record },
        5 => Record { len: *random.pick(&[&0, &200, &201, &LONGEST]), ..record },
        6 => Record { start: place(area + random.below(2)), ..record },
        7 => Record { start: place(area + random.below(3) + LAST_START - length), ..record },
        8 => {
            Record { start: place(LAST_START + 1 - random.within(1..=256)), len: LONGEST, ..record }
        }
        9 => Record { start: place(LAST_START + 1 + random.below(area + 1) - length), ..record },
        10 => Record { start: start ^ 1 << random.below(16), ..record },
        _ => Record { flags: flags ^ 1 << random.below(16), ..record },
    }
}
