//! What two tables differ in.

use std::collections::BTreeMap;

use formats::readers::Readers;
use formats::rows::Flags;

use crate::order::WalkPlace;
use crate::side::Side;

/// What a row says beside its name.
pub type Said = (Flags, Readers);

/// A name that the two tables do not have alike. A table that does not pass may have several rows of one
/// name; one that does not have the name has none.
#[derive(Clone, Debug, PartialEq, Eq)]
pub struct NameDifference {
    pub name: Vec<u8>,
    pub a: Vec<Said>,
    pub b: Vec<Said>,
}

/// Two tables side by side.
#[derive(Debug)]
pub struct Comparison {
    pub a: Side,
    pub b: Side,
    /// In walk order.
    pub differences: Vec<NameDifference>,
    /// How many names both have alike.
    pub alike: usize,
    /// Whether the namespace lists differ; none where one of the two kinds has none.
    pub namespaces_differ: Option<bool>,
}

/// How many names differ, and how.
#[derive(Clone, Copy, Debug, Default, PartialEq, Eq)]
pub struct Counts {
    pub only_a: usize,
    pub only_b: usize,
    pub differ: usize,
}

pub fn compare(a: Side, b: Side) -> Comparison {
    let mut names: BTreeMap<WalkPlace, NameDifference> = BTreeMap::new();
    for (side, is_a) in [(&a, true), (&b, false)] {
        for row in &side.rows {
            let empty = || NameDifference { name: row.name.clone(), a: Vec::new(), b: Vec::new() };
            let both = names.entry(WalkPlace::of(&row.name)).or_insert_with(empty);
            let said = if is_a { &mut both.a } else { &mut both.b };
            said.push((row.flags, row.readers));
        }
    }
    let all = names.len();
    let differences: Vec<NameDifference> =
        names.into_values().filter(|both| both.a != both.b).collect();
    let lists = a.namespaces.as_ref().zip(b.namespaces.as_ref());
    let namespaces_differ = lists.map(|(a, b)| a != b);
    Comparison { a, b, alike: all - differences.len(), differences, namespaces_differ }
}

impl Comparison {
    /// Whether nothing differs and nothing was left out of either table.
    pub fn is_alike(&self) -> bool {
        let is_same = self.differences.is_empty() && self.namespaces_differ != Some(true);
        is_same && self.a.is_whole() && self.b.is_whole()
    }

    pub fn counts(&self) -> Counts {
        let mut counts = Counts::default();
        for difference in &self.differences {
            match (difference.a.is_empty(), difference.b.is_empty()) {
                (false, true) => counts.only_a += 1,
                (true, false) => counts.only_b += 1,
                _ => counts.differ += 1,
            }
        }
        counts
    }
}
