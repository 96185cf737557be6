//! What a store says of all its mailboxes, brought together to rows that pass check 1.

use std::collections::BTreeMap;

use formats::name;
use formats::rows::{Flags, MAX_ROWS, MAX_TABLE, ROW_HEAD};
use formats::sizes::PROGRAM_TABLE;

use crate::found::{Found, Said};
use crate::told::Told;

/// One row of the result.
#[derive(Clone, Debug, PartialEq, Eq)]
pub struct StoreRow {
    pub name: Vec<u8>,
    pub flags: Flags,
}

/// For whom the table is made, by the bytes that it may have when its rows are packed.
#[derive(Clone, Copy, Debug, PartialEq, Eq)]
pub enum Room {
    /// The program of frames behind `./run`.
    Program,
    /// The library: document 01's limit of a table.
    Library,
}

impl Room {
    pub const fn bytes(self) -> usize {
        match self {
            Room::Program => PROGRAM_TABLE,
            Room::Library => MAX_TABLE,
        }
    }

    const fn reason(self) -> &'static str {
        match self {
            Room::Program => {
                "the program keeps at most 16,384 bytes of rows; --room library allows 32,768"
            }
            Room::Library => "a table has at most 32,768 bytes",
        }
    }
}

/// What is said of one name, by everything that says something of it.
#[derive(Debug)]
struct SaidOfName {
    /// Of the first in the store that named it.
    origin: String,
    /// Empty where nothing in the store names it.
    own_name: Vec<u8>,
    /// Of a mailbox that exists; none where nothing says that it does.
    existing: Option<Flags>,
    is_subscribed: bool,
    /// Whether something says that it is a level alone.
    is_level: bool,
    /// Said of it where it is not said to exist.
    beside: Flags,
    /// Added to it by whoever calls, and where.
    added: Flags,
    added_origin: String,
}

/// What a store says, by the names of the table, which ascend by their bytes.
#[derive(Debug, Default)]
pub struct Gathered {
    entries: BTreeMap<Vec<u8>, SaidOfName>,
}

impl Gathered {
    pub fn of(all_found: &[Found], told: &mut Told) -> Gathered {
        let mut gathered = Gathered::default();
        for found in all_found {
            gathered.add(found, told);
        }
        gathered
    }

    /// Adds what is said of a name, or tells why the table cannot have such a name.
    pub fn add(&mut self, found: &Found, told: &mut Told) {
        let origin = &found.origin;
        let name = match found.translated() {
            Ok(name) => name,
            Err(reason) => return told.left_out(origin, &found.name, reason),
        };
        if let Some(rule) = name::broken_rule(&name) {
            return told.left_out(origin, &found.name, rule);
        }
        if matches!(found.said, Said::Added(_)) {
            let entry = self.entries.entry(name).or_insert_with(|| SaidOfName::new(origin, &[]));
            return entry.add(origin, found.said);
        }
        let own_name = found.own_name(&name);
        if own_name != found.name {
            told.note_name(origin, &found.name, "spelled INBOX in its first level");
        }
        let entry = self.entries.entry(name).or_insert_with(|| SaidOfName::new(origin, &own_name));
        if entry.own_name.is_empty() {
            entry.own_name.clone_from(&own_name);
            entry.origin.clone_from(origin);
        }
        if entry.own_name != own_name {
            let reason = format!(
                "it would have the name of another mailbox, of {}, which the table keeps",
                entry.origin
            );
            return told.left_out(origin, &found.name, &reason);
        }
        entry.add(origin, found.said);
    }

    /// The rows, in the order of the bytes of their names. They pass check 1.
    pub fn into_rows(self, room: Room, told: &mut Told) -> Vec<StoreRow> {
        let mut rows: Vec<StoreRow> = Vec::new();
        let mut levels = Vec::new();
        let mut used = 0;
        let mut is_full = None;
        for (name, entry) in &self.entries {
            let Some(flags) = entry.flags(name, told) else {
                levels.push((name, entry));
                continue;
            };
            if let Some(above) = above_without_inferiors(&self.entries, name) {
                let above = formats::text::name_text(above);
                let reason = format!("it lies below {above}, which has no inferiors");
                told.left_out(&entry.origin, name, &reason);
                continue;
            }
            let size = ROW_HEAD + name.len();
            if is_full.is_none() && rows.len() == MAX_ROWS {
                is_full = Some("a table has at most 512 rows");
            } else if is_full.is_none() && used + size > room.bytes() {
                is_full = Some(room.reason());
            }
            if let Some(reason) = is_full {
                told.left_out(&entry.origin, name, reason);
                continue;
            }
            used += size;
            rows.push(StoreRow { name: name.clone(), flags });
        }
        for (name, entry) in levels {
            tell_level(name, entry, &rows, told);
        }
        rows
    }
}

impl SaidOfName {
    fn new(origin: &str, own_name: &[u8]) -> SaidOfName {
        SaidOfName {
            origin: origin.to_string(),
            own_name: own_name.to_vec(),
            existing: None,
            is_subscribed: false,
            is_level: false,
            beside: Flags::IMPLIED,
            added: Flags::IMPLIED,
            added_origin: String::new(),
        }
    }

    fn add(&mut self, origin: &str, said: Said) {
        match said {
            Said::Exists(flags) => {
                let before = self.existing.unwrap_or(Flags::EXISTS);
                self.existing = Some(before.with(flags));
                self.is_subscribed |= flags.has(Flags::SUBSCRIBED);
            }
            Said::Subscribed(beside) => {
                self.is_subscribed = true;
                self.beside.add(beside);
            }
            Said::Level(beside) => {
                self.is_level = true;
                self.beside.add(beside);
            }
            Said::Added(flags) => {
                self.is_subscribed |= flags.has(Flags::SUBSCRIBED);
                self.added.add(flags);
                self.added_origin = origin.to_string();
            }
        }
    }

    /// The flags of its row, or none for a name that has no row: one that neither exists nor is
    /// subscribed. "a row that does not exist has flags exactly 0002"
    fn flags(&self, name: &[u8], told: &mut Told) -> Option<Flags> {
        let Some(mut flags) = self.existing else {
            self.tell_beside(name, Flags::SUBSCRIBED, told);
            self.tell_added(name, told);
            return self.is_subscribed.then_some(Flags::SUBSCRIBED);
        };
        flags.add(self.added);
        if self.is_subscribed {
            flags.add(Flags::SUBSCRIBED);
        }
        if flags.has(Flags::MARKED) && flags.has(Flags::UNMARKED) {
            let reason = "it is said to be marked and to be unmarked; its row has neither";
            told.left_out(&self.origin, name, reason);
            flags.remove(Flags::MARKED.with(Flags::UNMARKED));
        }
        if self.is_level {
            let text = "said to be no mailbox in one place and to be one in another; it exists";
            told.note_name(&self.origin, name, text);
        }
        self.tell_beside(name, flags, told);
        Some(flags)
    }

    /// What was said of it where it is not said to exist, and is not in the row.
    fn tell_beside(&self, name: &[u8], flags: Flags, told: &mut Told) {
        let mut lost = self.beside;
        lost.remove(flags);
        if lost != Flags::IMPLIED {
            let words = formats::words::words_of_flags(lost);
            let reason = format!("{words}, said where it is not said to exist; no row has that");
            told.left_out(&self.origin, name, &reason);
        }
    }

    /// What was added to it, which does not exist.
    fn tell_added(&self, name: &[u8], told: &mut Told) {
        let mut lost = self.added;
        lost.remove(Flags::SUBSCRIBED);
        if lost != Flags::IMPLIED {
            let words = formats::words::words_of_flags(lost);
            let reason = format!("there is no such mailbox, so none is {words}");
            told.left_out(&self.added_origin, name, &reason);
        }
    }
}

/// The ancestor of a name that has a row with no inferiors, if one has.
fn above_without_inferiors<'n>(
    entries: &BTreeMap<Vec<u8>, SaidOfName>,
    name: &'n [u8],
) -> Option<&'n [u8]> {
    let has_none = |ancestor: &&[u8]| {
        let entry = entries.get(*ancestor);
        entry.and_then(|entry| entry.existing).is_some_and(|flags| flags.has(Flags::NO_INFERIORS))
    };
    name::ancestors(name).find(has_none)
}

/// A level needs no row where one lies below it: its name is implied.
fn tell_level(name: &[u8], entry: &SaidOfName, rows: &[StoreRow], told: &mut Told) {
    let prefix = name::descendant_prefix(name);
    if entry.is_level && !rows.iter().any(|row| row.name.starts_with(&prefix)) {
        let reason = "it neither exists nor is subscribed, and no row lies below it";
        told.left_out(&entry.origin, name, reason);
    }
}
