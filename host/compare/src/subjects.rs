//! Tables, and requests that are about some name of theirs.

use formats::name;
use formats::readers::Reader;

use crate::commands::pattern;
use crate::levels::tree;
use crate::lsub::subscriptions;
use crate::random::Random;
use crate::readers::veil;
use crate::requests::{Options, Request};
use crate::tables::{names_of, NewRow};

/// The most rows of a table.
const FEW: usize = 18;
/// No pattern and no reference is longer, so that eight patterns fit into a line, quoted or not.
const MAX_WRITTEN: usize = 90;
/// INBOX in other spellings than the table's, alone and with what lies below it.
const INBOX_PATTERNS: [&[u8]; 8] =
    [b"inbox", b"iNbOx", b"in%", b"Inbox*", b"inbo%", b"i*", b"inbox/%", b"%x"];

/// A table, and what is asked over it.
pub struct Subject {
    pub rows: Vec<NewRow>,
    /// The names of the rows and of the levels above them.
    pub names: Vec<Vec<u8>>,
    /// A reader from whom some rows are hidden, mostly.
    pub reader: Reader,
}

impl Subject {
    /// Levels without a mailbox, or names of every kind with many subscriptions or few.
    pub fn some(random: &mut Random) -> Subject {
        let mut rows = if random.percent(50) {
            tree(random)
        } else {
            let count = random.within(1..=FEW);
            subscriptions(random, count)
        };
        let reader = if random.percent(80) { veil(random, &mut rows) } else { Reader::EDITOR };
        Subject { names: names_of(&rows), rows, reader }
    }

    /// A request without patterns yet, and the name that its patterns are to be about.
    pub fn some_request(&self, random: &mut Random) -> (Request, Vec<u8>) {
        let about = self.some_parent(random);
        let reference = some_reference(random, &about);
        let options = Options::some(random);
        (Request { reader: self.reader, options, reference, patterns: Vec::new() }, about)
    }

    /// Patterns, `count` of them, to stand after a reference. Most of them are about a name: they match it, its
    /// level, or what lies below it.
    pub fn some_patterns(
        &self,
        random: &mut Random,
        about: &[u8],
        reference: &[u8],
        count: usize,
    ) -> Vec<Vec<u8>> {
        let mut written = |_| {
            let canonical = self.pattern_about(random, about);
            let mut pattern = canonical.strip_prefix(reference).unwrap_or(&canonical).to_vec();
            pattern.truncate(MAX_WRITTEN);
            pattern
        };
        (0..count).map(&mut written).collect()
    }

    /// A name that has others below it, where there is one, else any.
    fn some_parent(&self, random: &mut Random) -> Vec<u8> {
        let parents: Vec<&[u8]> =
            self.rows.iter().flat_map(|row| name::ancestors(&row.name)).collect();
        if parents.is_empty() {
            self.names[random.below(self.names.len())].clone()
        } else {
            parents[random.below(parents.len())].to_vec()
        }
    }

    fn pattern_about(&self, random: &mut Random, about: &[u8]) -> Vec<u8> {
        let prefix = name::descendant_prefix(about);
        let below: Vec<&NewRow> =
            self.rows.iter().filter(|row| row.name.starts_with(&prefix)).collect();
        match random.below(14) {
            0 | 1 => about.to_vec(),
            2 | 3 => {
                let level = about.iter().rposition(|&byte| byte == b'/').map_or(0, |at| at + 1);
                [&about[..level], b"%"].concat()
            }
            4 => [prefix.as_slice(), b"%"].concat(),
            5 => [prefix.as_slice(), b"*"].concat(),
            6..9 if !below.is_empty() => below[random.below(below.len())].name.clone(),
            9 => random.pick(&INBOX_PATTERNS).to_vec(),
            10 => random.pick(&[b"%".as_slice(), b"*", b"*%", b"%/%"]).to_vec(),
            _ => pattern(random, &self.names),
        }
    }
}

/// A reference, most often empty or the start of a name.
fn some_reference(random: &mut Random, about: &[u8]) -> Vec<u8> {
    let mut reference = match random.below(10) {
        0..6 => Vec::new(),
        6..9 => about[..random.below(about.len() + 1)].to_vec(),
        _ => random.pick(&[b"%".as_slice(), b"*", b"in", b"Foo/", b"%/"]).to_vec(),
    };
    reference.truncate(MAX_WRITTEN);
    reference
}
