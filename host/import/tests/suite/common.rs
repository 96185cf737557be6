//! From a store to a session file, and back to the table that it is.

use formats::frames::Frame;
use formats::item::Content;
use formats::session::Session;
use formats::source::Source;
use import::{mailbox_lines, Found, Gathered, Room, Told};
use second::{check_table, Table};

/// What came of a store.
pub struct Came {
    /// The mailbox lines, and the comments beside them.
    pub lines: Vec<String>,
    pub told: Told,
}

/// The rows of what a store says, as items. They are read back, and their table passes.
pub fn came(found: &[Found], mut told: Told, room: Room) -> Came {
    let rows = Gathered::of(found, &mut told).into_rows(room, &mut told);
    let text = mailbox_lines(&rows);
    let table = packed_table(&text);
    assert!(check_table(Table::Packed(&table)), "{text}");
    assert!(table.len() <= room.bytes());
    Came { lines: text.lines().map(String::from).collect(), told }
}

/// The rows of a session file, in the order in which they stand, packed.
pub fn packed_table(text: &str) -> Vec<u8> {
    let session = Session::check(Source::of_bytes(text.as_bytes())).expect("a session");
    let mut table = Vec::new();
    for item in session.items().expect("items") {
        match item.expect("an item").content {
            Content::Sent(sent) => match Frame::decode(&sent.frame.text) {
                Ok(Frame::Row(row)) => table.extend(row),
                other => panic!("{other:?}"),
            },
            Content::Comment(_) => {}
            Content::Sorted(_) | Content::AsGiven => panic!("the rows stand in another order"),
        }
    }
    table
}
