//! The line reader, mostly on what is nearly a line.

use luspemaro::NAME_ROOM;
use second::Refusal;

use super::tally::{shown, Tally, Text, SEED};
use crate::random::Random;

/// Lines put together from pieces, and lines of random bytes.
const PUT_TOGETHER: usize = 300_000;
const RANDOM_LINES: usize = 200_000;

/// Lines that are read, without their CR LF.
const LINES: [&[u8]; 8] = [
    br#"* LIST () "/" "Foo""#,
    br#"* LIST (\Noselect) "/" """#,
    br#"* LIST (\Subscribed) "/" "Foo/Baz""#,
    br#"* LIST (\NonExistent) "/" "Foo" ("CHILDINFO" ("SUBSCRIBED"))"#,
    br#"* LIST (\Marked \Unmarked) "/" "q\"\\""#,
    br#"* LIST (\All \Archive \HasChildren) "/" "INBOX/x""#,
    br#"* LIST (\Marked \NoInferiors \Remote \HasNoChildren) "/" "a b/c" ("CHILDINFO" ("SUBSCRIBED"))"#,
    br#"* LIST (\Drafts \Flagged \Junk \Sent \Trash) "/" "~""#,
];

/// Pieces of lines, right and wrong.
const PIECES: [&[u8]; 24] = [
    b"* LIST (",
    b"* LIST ",
    b"* LSUB (",
    br"\Marked",
    br"\Noselect",
    br"\Subscribed",
    br"\Remote",
    br"\HasChildren",
    br"\HasNoChildren",
    br"\hasnochildren",
    b" ",
    b"  ",
    br#") "/" ""#,
    br#") NIL ""#,
    b"Foo",
    b"INBOX",
    b"inbox",
    b"/",
    b"\\\"",
    b"\\",
    b"\"",
    br#" ("CHILDINFO" ("SUBSCRIBED"))"#,
    b"\r\n",
    b"\n",
];

/// What a line is read as, in one form for both libraries.
#[derive(Debug, PartialEq)]
pub struct Parts {
    pub attributes: u16,
    pub name: Text,
    pub childinfo: u8,
}

impl Parts {
    /// What the proved library reads. Of a refusal it checks itself that it has no parts.
    pub fn proved(line: &[u8]) -> Result<Parts, u8> {
        let read = luspemaro::read_line(line).map_err(luspemaro::Refusal::number)?;
        let (attributes, childinfo) = (read.attributes, read.childinfo.bits());
        Ok(Parts { attributes, name: Text(read.name().to_vec()), childinfo })
    }

    fn second(line: &[u8]) -> Result<Parts, u8> {
        let read = second::read_line(line).map_err(Refusal::number)?;
        let (attributes, childinfo) = (read.attrs, read.childinfo.bits());
        Ok(Parts { attributes, name: Text(read.name), childinfo })
    }
}

/// Every byte changed to every other, every byte left out, every byte put in at every place.
pub fn one_byte_damaged(tally: &mut Tally) {
    for line in lines() {
        for at in 0..=line.len() {
            for byte in 0..=u8::MAX {
                let mut added = line.clone();
                added.insert(at, byte);
                read_both(tally, &added);
                let mut changed = line.clone();
                if let Some(place) = changed.get_mut(at) {
                    *place = byte;
                    read_both(tally, &changed);
                }
            }
            let without = line.iter().enumerate().filter(|&(place, _)| place != at);
            read_both(tally, &without.map(|(_, &byte)| byte).collect::<Vec<u8>>());
        }
    }
}

/// Lines cut off, doubled, with a doubled end, and put together from pieces.
pub fn pieces(tally: &mut Tally) {
    for line in lines() {
        for at in 0..=line.len() {
            read_both(tally, &line[..at]);
            read_both(tally, &line[at..]);
            read_both(tally, &[&line[..at], b"\r\n"].concat());
        }
        read_both(tally, &[&line[..], b"\r\n"].concat());
        read_both(tally, &[&line[..], &line[..]].concat());
    }
    let mut random = Random::of("library: pieces", SEED);
    for _ in 0..PUT_TOGETHER {
        let mut line = if random.percent(70) { PIECES[0].to_vec() } else { Vec::new() };
        for _ in 0..random.within(1..=12) {
            line.extend_from_slice(random.pick(&PIECES));
        }
        read_both(tally, &line);
    }
}

pub fn random_bytes(tally: &mut Tally) {
    let mut random = Random::of("library: random lines", SEED);
    for _ in 0..RANDOM_LINES {
        let length = random.below(80);
        let line: Vec<u8> = (0..length).map(|_| random.byte()).collect();
        read_both(tally, &line);
        read_both(tally, &[PIECES[0], &line, b"\r\n"].concat());
    }
}

/// Reads by both libraries: the parts, and the name in 200 bytes with zeros behind it.
pub fn read_both(tally: &mut Tally, line: &[u8]) {
    let given = [Parts::proved(line), Parts::second(line)];
    tally.same(|| format!("read_line: {}", shown(line)), given);
    if let Ok(read) = luspemaro::read_line(line) {
        let mut area = [0; NAME_ROOM];
        area[..read.name().len()].copy_from_slice(read.name());
        let given = [read.area(), &area].map(|area| Text(area.to_vec()));
        tally.same(|| format!("the name's area: {}", shown(line)), given);
    }
}

fn lines() -> impl Iterator<Item = Vec<u8>> {
    LINES.iter().map(|line| [line, b"\r\n".as_slice()].concat())
}
