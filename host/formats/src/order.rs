//! The order of the rows: a table ascends by the unsigned bytes of its names, and mailbox lines may
//! stand in any order.
//!
//! Rows that were sent cannot be taken back, so the lines between two items that are answered are
//! put in order among themselves. Comments and namespaces between them stay where they are.

use std::collections::VecDeque;

use crate::error::SessionError;
use crate::item::{Content, Item, Origin};

/// No more rows than this are put in order together. No table has as many: 16,384 bytes hold 4,096
/// rows of four bytes.
const MOST_ROWS: usize = 6_000;

type ReadItem = Result<Item, SessionError>;

/// Items with their rows in order, unless the session wants them as given.
pub struct Ordered<I> {
    items: I,
    as_given: bool,
    ready: VecDeque<ReadItem>,
}

impl<I: Iterator<Item = ReadItem>> Ordered<I> {
    pub fn new(items: I) -> Ordered<I> {
        Ordered { items, as_given: false, ready: VecDeque::new() }
    }

    /// Reads items through the next one that is answered, or that is no item.
    fn read_group(&mut self) {
        let sorts = !self.as_given;
        let mut rows = 0;
        for item in self.items.by_ref() {
            let (is_row, is_end) = match &item {
                Ok(item) => (is_row(item), self.as_given || is_end(item)),
                Err(_) => (false, true),
            };
            self.as_given |= matches!(&item, Ok(item) if matches!(item.content, Content::AsGiven));
            self.ready.push_back(item);
            rows += usize::from(is_row);
            if is_end || rows == MOST_ROWS {
                break;
            }
        }
        if sorts {
            sort_rows(&mut self.ready);
        }
    }
}

impl<I: Iterator<Item = ReadItem>> Iterator for Ordered<I> {
    type Item = ReadItem;

    fn next(&mut self) -> Option<ReadItem> {
        if self.ready.is_empty() {
            self.read_group();
        }
        self.ready.pop_front()
    }
}

/// Puts the rows of a group in order, each in a place where a row stood, and says so before the
/// first. Rows of one name stay in the order in which they stand.
fn sort_rows(group: &mut VecDeque<ReadItem>) {
    let is_place = |read: &ReadItem| read.as_ref().is_ok_and(is_row);
    let places: Vec<usize> = (0..group.len()).filter(|&at| is_place(&group[at])).collect();
    let name_at = |at: &usize| group[*at].as_ref().map_or(b"".as_slice(), row_name);
    let mut sorted = places.clone();
    sorted.sort_by(|one, other| name_at(one).cmp(name_at(other)));
    if sorted == places {
        return;
    }
    let rows: Vec<Item> =
        sorted.iter().filter_map(|&at| group[at].as_ref().ok().cloned()).collect();
    let first = Item { line: rows[0].line, content: Content::Sorted(rows.len()) };
    for (&place, row) in places.iter().zip(rows) {
        group[place] = Ok(row);
    }
    group.insert(places[0], Ok(first));
}

fn row_name(item: &Item) -> &[u8] {
    match &item.content {
        Content::Sent(sent) => match &sent.origin {
            Origin::Mailbox(name) => name,
            Origin::Namespace | Origin::LargeWalk | Origin::Other => b"",
        },
        _ => b"",
    }
}

fn is_row(item: &Item) -> bool {
    matches!(&item.content, Content::Sent(sent) if matches!(sent.origin, Origin::Mailbox(_)))
}

/// Whether rows after an item must not be sent before it.
fn is_end(item: &Item) -> bool {
    match &item.content {
        Content::Sent(sent) => matches!(sent.origin, Origin::LargeWalk | Origin::Other),
        Content::AsGiven => true,
        Content::Comment(_) | Content::Sorted(_) => false,
    }
}
