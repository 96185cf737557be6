//! Parts of joined commands (document 02, W11): lawful ones, with strings of every kind, and damaged ones, in
//! which each part is on either side of its limits.

use second::command::{MAX_CANONICAL, MAX_PATTERNS};
use second::joined::MAX_OPTIONS;
use second::literal::MAX_LITERAL;
use second::shape::MAX_LINE;
use second::{join, Refusal};

use crate::commands::{pattern, some_tag};
use crate::random::Random;
use crate::reached::Reached;
use crate::requests::Options;
use crate::trials::JUDGED;

/// What a string in quotes has with a backslash, what a literal alone holds, and what looks like the end of
/// something.
const ODD_TEXTS: [&[u8]; 12] = [
    b"\"",
    b"\\",
    b"\\\"",
    b"\r\n",
    b"\r",
    b"\n",
    b"\x80",
    b"Caf\xC3\xA9",
    b"\x01\x7F",
    b"{3}",
    b"{3}\r\n",
    b") RETURN (",
];
/// Bytes of a part that is made long: one byte of a line each, two, or a literal's.
const FILLERS: &[u8] = b"xx\"\\\xFF\r";
const ODD_TAG_BYTES: &[u8] = b"+ (){%*\"\\\0\r\n\x7F\x80";

const LITERAL: &str = "a literal is written";
const QUOTED: &str = "a backslash is written";
const LONGEST: &str = "a line of 2,048 bytes";

/// What a joined command is written from.
#[derive(Clone, Debug, Default)]
pub struct Parts {
    pub tag: Vec<u8>,
    pub options: u8,
    pub reference: Vec<u8>,
    pub patterns: Vec<Vec<u8>>,
}

impl Parts {
    /// Parts that are written, about these names.
    pub fn lawful(random: &mut Random, names: &[Vec<u8>]) -> Parts {
        let mut parts = Parts {
            tag: some_tag(random).to_vec(),
            options: Options::some(random).number(),
            reference: some_string(random, names),
            patterns: Vec::new(),
        };
        if random.percent(60) {
            parts.reference.clear();
        }
        let most = if random.percent(30) { MAX_PATTERNS } else { 3 };
        for _ in 0..random.within(1..=most) {
            let mut pattern = some_string(random, names);
            pattern.truncate(MAX_CANONICAL - parts.reference.len());
            parts.patterns.push(pattern);
        }
        parts
    }

    /// One or two damages, some of which leave the parts lawful.
    pub fn damage(&mut self, random: &mut Random) {
        for _ in 0..random.within(1..=2) {
            match random.below(10) {
                0 => self.tag.clear(),
                1 => {
                    let at = random.below(self.tag.len() + 1);
                    self.tag.insert(at, ODD_TAG_BYTES[random.below(ODD_TAG_BYTES.len())]);
                }
                2 => self.options = random.byte(),
                3 => self.options = random.below(usize::from(MAX_OPTIONS) + 1) as u8,
                4 => self.insert_zero(random),
                5 => self.patterns.clear(),
                6 => {
                    let more = random.within(MAX_PATTERNS - 1..=MAX_PATTERNS + 2);
                    self.patterns.resize(more, b"%".to_vec());
                }
                7 => self.fill_canonical(random),
                8 => self.fill_literal(random),
                _ => self.fill_line(random),
            }
        }
    }

    /// The patterns as they are lent, each after its length; none if a pattern is too long for that.
    pub fn list(&self) -> Option<Vec<u8>> {
        let mut list = Vec::new();
        for pattern in &self.patterns {
            list.push(u8::try_from(pattern.len()).ok()?);
            list.extend_from_slice(pattern);
        }
        Some(list)
    }

    pub fn slices(&self) -> Vec<&[u8]> {
        self.patterns.iter().map(Vec::as_slice).collect()
    }

    /// The reference or a pattern.
    fn some_part(&mut self, random: &mut Random) -> &mut Vec<u8> {
        match random.below(self.patterns.len() + 1) {
            0 => &mut self.reference,
            number => &mut self.patterns[number - 1],
        }
    }

    fn insert_zero(&mut self, random: &mut Random) {
        let part = self.some_part(random);
        let at = random.below(part.len() + 1);
        part.insert(at, 0);
    }

    /// A pattern and the reference together about as long as they may be.
    fn fill_canonical(&mut self, random: &mut Random) {
        let length = random.within(MAX_CANONICAL - 1..=MAX_CANONICAL + 1);
        let filler = some_filler(random);
        let Parts { reference, patterns, .. } = self;
        if let Some(pattern) = patterns.last_mut().filter(|_| reference.len() < length) {
            pattern.resize(length - reference.len(), filler);
        }
    }

    /// A string of about the length of the longest literal.
    fn fill_literal(&mut self, random: &mut Random) {
        let length = random.within(MAX_LITERAL - 1..=MAX_LITERAL + 1);
        *self.some_part(random) = vec![0xFF; length];
    }

    /// A line of 2,047 to 2,049 bytes, by the tag, by the reference where every pattern is empty, or about so
    /// long by any string. Parts that are not lawful stay.
    fn fill_line(&mut self, random: &mut Random) {
        let (filler, way) = (some_filler(random), random.below(3));
        if way == 1 {
            self.patterns.iter_mut().for_each(Vec::clear);
        }
        let Parts { tag, options, reference, .. } = &*self;
        let written = join(tag, *options, reference, &self.slices(), &mut [0; MAX_LINE]);
        let Ok(length) = written else { return };
        let left = (MAX_LINE + random.below(3)).saturating_sub(length + 1);
        match way {
            0 => self.tag.resize(self.tag.len() + left, b't'),
            1 => self.reference.resize(self.reference.len() + left, b'x'),
            _ => {
                // A byte with a backslash before it takes two.
                let more = if b"\"\\".contains(&filler) { left / 2 } else { left };
                let part = self.some_part(random);
                part.resize(part.len() + more, filler);
            }
        }
    }
}

/// A list with a byte changed, left out or added, so that mostly its patterns do not fill it.
pub fn damaged_list(random: &mut Random, mut list: Vec<u8>) -> Vec<u8> {
    let at = random.below(list.len() + 1);
    match random.below(4) {
        0 => list.truncate(at),
        1 => list.insert(at, random.byte()),
        2 if at < list.len() => list[at] = random.byte(),
        _ => list.push(random.byte()),
    }
    list
}

fn some_filler(random: &mut Random) -> u8 {
    FILLERS[random.below(FILLERS.len())]
}

/// A pattern about the names, now and then with something odd in it.
fn some_string(random: &mut Random, names: &[Vec<u8>]) -> Vec<u8> {
    let mut string = pattern(random, names);
    if random.percent(30) {
        let at = random.below(string.len() + 1);
        string.splice(at..at, random.pick(&ODD_TEXTS).to_vec());
    }
    string
}

/// What a call with some parts met: the line, or the number.
pub fn met(given: &Result<Vec<u8>, u8>) -> Reached {
    let mut reached = Reached::default();
    reached.add(JUDGED);
    match given {
        Ok(line) => reached.add_held([
            ("written", true),
            (LITERAL, line.windows(3).any(|text| text == b"}\r\n")),
            (QUOTED, line.contains(&b'\\')),
            (LONGEST, line.len() == MAX_LINE),
        ]),
        Err(number) => reached.add(refused(*number)),
    }
    reached
}

/// What enough calls must have met: every refusal among it.
pub fn needed() -> Vec<String> {
    let refusals = [
        Refusal::LineShape,
        Refusal::Grammar,
        Refusal::UnknownOption,
        Refusal::RecursiveMatchAlone,
        Refusal::Patterns,
        Refusal::AnswerRoom,
    ];
    let texts = ["written", LITERAL, QUOTED, LONGEST].map(str::to_string);
    texts.into_iter().chain(refusals.map(|refusal| refused(refusal.number()))).collect()
}

fn refused(number: u8) -> String {
    format!("refused with {number}")
}
