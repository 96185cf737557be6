//! The namespace list: its entries, check 2 and the NAMESPACE line.

use crate::fault::ListFault;
use crate::line::CRLF;
use crate::name::is_printable;
use crate::quoted::push_quoted;

/// Personal, other users, shared.
pub const CLASSES: u8 = 3;
/// Document 01: "at most 4 entries a class".
pub const MAX_ENTRIES_A_CLASS: usize = 4;
/// Document 01: "prefix length 0 to 64".
pub const MAX_PREFIX: usize = 64;
/// The bytes of an entry before its prefix: class and prefix length.
const ENTRY_HEAD: usize = 2;
/// The delimiter byte that stands for NIL.
const NIL_DELIMITER: u8 = 0;

/// One entry of the namespace list.
#[derive(Clone, Copy, Debug)]
pub struct Entry<'n> {
    pub class: u8,
    pub prefix: &'n [u8],
    /// None is NIL.
    pub delimiter: Option<u8>,
}

impl Entry<'_> {
    /// The bytes of the entry, or none for a prefix longer than its length byte can say.
    pub fn to_bytes(&self) -> Option<Vec<u8>> {
        let length = u8::try_from(self.prefix.len()).ok()?;
        let delimiter = self.delimiter.unwrap_or(NIL_DELIMITER);
        Some([&[self.class, length], self.prefix, &[delimiter]].concat())
    }

    /// The first rule that the entry breaks by itself.
    fn broken_rule(&self) -> Option<&'static str> {
        if self.class >= CLASSES {
            Some("a class is 0 personal, 1 other users or 2 shared")
        } else if self.prefix.len() > MAX_PREFIX {
            Some("a prefix has 0 to 64 bytes")
        } else if !self.prefix.iter().all(|&byte| is_printable(byte)) {
            Some("prefix bytes are 20 to 7E (hex)")
        } else if !self.delimiter.is_none_or(|byte| is_printable(byte) && byte != b' ') {
            Some("a delimiter is 0 for NIL, or 21 to 7E (hex)")
        } else {
            None
        }
    }

    fn length(&self) -> usize {
        ENTRY_HEAD + self.prefix.len() + 1
    }
}

/// Check 2.
pub fn check_namespaces(list: &[u8]) -> bool {
    checked_entries(list).is_ok()
}

/// The entries of a namespace list that passes check 2, or the first entry that breaks a rule.
pub fn checked_entries(list: &[u8]) -> Result<Vec<Entry<'_>>, ListFault> {
    let (entries, rest) = split_entries(list);
    let start = |entry: usize| entries[..entry].iter().map(Entry::length).sum();
    for entry in 0..entries.len() {
        if let Some((rule, other)) = broken_rule(&entries, entry) {
            return Err(ListFault { at: start(entry), rule, other: other.map(start) });
        }
    }
    if rest.is_empty() {
        return Ok(entries);
    }
    let rule = "entries fill the list exactly";
    Err(ListFault { at: list.len() - rest.len(), rule, other: None })
}

/// The first rule that an entry breaks by itself or with those before it, and one of them.
fn broken_rule(entries: &[Entry], at: usize) -> Option<(&'static str, Option<usize>)> {
    let class = entries[at].class;
    let before = at.checked_sub(1).filter(|&before| entries[before].class > class);
    if let Some(rule) = entries[at].broken_rule() {
        Some((rule, None))
    } else if before.is_some() {
        Some(("classes do not descend", before))
    } else if of_class(&entries[..at], class).count() >= MAX_ENTRIES_A_CLASS {
        Some(("at most 4 entries a class", None))
    } else {
        None
    }
}

/// The entry at a place of a list.
pub fn entry_at(list: &[u8], at: usize) -> Option<Entry<'_>> {
    split_entry(list.get(at..)?).map(|(entry, _)| entry)
}

/// The entries of a list, not judged any further, and the bytes behind them that are no whole
/// entry.
pub fn split_entries(list: &[u8]) -> (Vec<Entry<'_>>, &[u8]) {
    let mut entries = Vec::new();
    let mut rest = list;
    while let Some((entry, behind)) = split_entry(rest) {
        entries.push(entry);
        rest = behind;
    }
    (entries, rest)
}

/// "A namespace entry is class […], prefix length 0 to 64, prefix of bytes 20 to 7E, delimiter
/// (0 for NIL, or 21 to 7E)."
fn split_entry(list: &[u8]) -> Option<(Entry<'_>, &[u8])> {
    let (&class, rest) = list.split_first()?;
    let (&length, rest) = rest.split_first()?;
    let (prefix, rest) = rest.split_at_checked(usize::from(length))?;
    let (&delimiter, rest) = rest.split_first()?;
    let delimiter = (delimiter != NIL_DELIMITER).then_some(delimiter);
    Some((Entry { class, prefix, delimiter }, rest))
}

/// "NAMESPACE: `* NAMESPACE` and three classes, each NIL or entries".
pub fn namespace_line(entries: &[Entry]) -> Vec<u8> {
    let mut line = b"* NAMESPACE".to_vec();
    for class in 0..CLASSES {
        line.push(b' ');
        push_class(&mut line, of_class(entries, class));
    }
    line.extend_from_slice(CRLF);
    line
}

fn of_class<'e, 'n>(entries: &'e [Entry<'n>], class: u8) -> impl Iterator<Item = &'e Entry<'n>> {
    entries.iter().filter(move |entry| entry.class == class)
}

fn push_class<'e, 'n: 'e>(line: &mut Vec<u8>, entries: impl Iterator<Item = &'e Entry<'n>>) {
    let mut entries = entries.peekable();
    if entries.peek().is_none() {
        line.extend_from_slice(b"NIL");
        return;
    }
    line.push(b'(');
    entries.for_each(|entry| push_entry(line, entry));
    line.push(b')');
}

/// "a delimiter is quoted or NIL"
fn push_entry(line: &mut Vec<u8>, entry: &Entry) {
    line.push(b'(');
    push_quoted(line, entry.prefix);
    line.push(b' ');
    match entry.delimiter {
        Some(delimiter) => push_quoted(line, &[delimiter]),
        None => line.extend_from_slice(b"NIL"),
    }
    line.push(b')');
}
