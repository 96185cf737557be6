//! The line writer, and the reader on what it wrote.

use super::both::{SECOND, WRITE_LINE};
use super::reading::{read_both, Parts};
use super::tally::{shown, Tally, Text};

/// More than the longest line: all attributes, a name of 200 escaped bytes, CHILDINFO.
const ROOM: usize = 1_000;
/// What the buffer holds before, to see which bytes stay.
const FILL: u8 = b'.';
/// `\Noselect`, the set of the root line.
const NOSELECT: u16 = 4;

/// All sets of the sixteen attributes, with every set of criteria.
pub fn every_set(tally: &mut Tally) {
    for attributes in 0..=u16::MAX {
        for criteria in every_criteria() {
            let name = b"Customers/\"A\\B\"";
            let line = write_both(tally, attributes, name, criteria, ROOM);
            round_trip(tally, &line, attributes, name, criteria);
        }
    }
}

/// Names that pass and do not, some sets of attributes, and buffers around the line's length.
pub fn names_and_rooms(tally: &mut Tally) {
    let sets = [0, 1, 3, NOSELECT, 0x0020, 0x4000, 0x8000, u16::MAX];
    for name in names() {
        for attributes in sets {
            for criteria in every_criteria() {
                let line = write_both(tally, attributes, &name, criteria, ROOM);
                if !line.is_empty() {
                    round_trip(tally, &line, attributes, &name, criteria);
                }
                let need = line.len();
                for room in [0, 1, need.saturating_sub(1), need, need + 1] {
                    write_both(tally, attributes, &name, criteria, room);
                }
            }
        }
    }
}

/// All 256 numbers in the place of a set of criteria, of which four are one.
pub fn every_criteria_byte(tally: &mut Tally) {
    for name in names() {
        for attributes in [0, NOSELECT, u16::MAX] {
            for criteria in 0..=u8::MAX {
                for room in [0, ROOM] {
                    write_both(tally, attributes, &name, criteria, room);
                }
            }
        }
    }
}

/// No CHILDINFO, one criterion, the other, both.
fn every_criteria() -> impl Iterator<Item = u8> {
    0..=3
}

/// Writes by both libraries and gives the line of the second, empty if it was refused.
fn write_both(
    tally: &mut Tally,
    attributes: u16,
    name: &[u8],
    criteria: u8,
    room: usize,
) -> Vec<u8> {
    let given = WRITE_LINE.map(|write| {
        let mut out = vec![FILL; room];
        let result = write(attributes, name, criteria, &mut out);
        (result, Text(out))
    });
    let (result, out) = &given[SECOND];
    let line = out.0[..result.unwrap_or(0)].to_vec();
    let call = || {
        let name = shown(name);
        format!("write_line: attributes {attributes:#06x}, name {name}, CHILDINFO {criteria}, room {room}")
    };
    tally.same(call, given);
    line
}

/// A line that was written is read back as its parts, by both.
fn round_trip(tally: &mut Tally, line: &[u8], attributes: u16, name: &[u8], criteria: u8) {
    read_both(tally, line);
    let parts = Parts { attributes, name: Text(name.to_vec()), childinfo: criteria };
    tally.same(|| format!("read back: {}", shown(line)), [Parts::proved(line), Ok(parts)]);
}

/// Names on both sides of every limit, with everything that is escaped.
fn names() -> Vec<Vec<u8>> {
    let texts: [&[u8]; 21] = [
        b"",
        b"a",
        b"Foo",
        b"Foo/Bar",
        b"\"",
        b"\\",
        b"q\"q\\q",
        b"\\\"\\\"",
        b"a b",
        b" ",
        b"~",
        b"INBOX",
        b"inbox",
        b"Inbox/x",
        b"INBOX/x",
        b"inboxx",
        b"x/inbox",
        b"/a",
        b"a/",
        b"a//b",
        b"(x) {3}",
    ];
    let mut names: Vec<Vec<u8>> = texts.iter().map(|text| text.to_vec()).collect();
    for length in [199, 200, 201, 255, 256, 300] {
        names.extend([b'n', b'"', b'\\'].map(|byte| vec![byte; length]));
    }
    names.extend([15, 16, 17].map(|levels| vec!["l"; levels].join("/").into_bytes()));
    names.extend((0..=u8::MAX).map(|byte| vec![b'a', byte, b'b']));
    names
}
