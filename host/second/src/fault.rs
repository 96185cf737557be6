//! Why something is refused: which rule is broken, and where. The rules are in document 01's words.

use crate::refusal::Refusal;

/// A row of a table or an entry of a namespace list that breaks a rule.
#[derive(Clone, Copy, Debug, PartialEq, Eq)]
pub struct ListFault {
    /// The byte of the packed table or list, from 0 on, where it starts; of records, the number of
    /// the record.
    pub at: usize,
    pub rule: &'static str,
    /// Where the other one starts without which the rule would not be broken.
    pub other: Option<usize>,
}

/// A place of a command line that breaks a rule.
#[derive(Clone, Copy, Debug, PartialEq, Eq)]
pub struct LineFault {
    /// From 3 to 8; of the word of an edit, 16; of its name, 14 or 15.
    pub refusal: Refusal,
    /// The byte of the line, from 0 on; the line's length is its end.
    pub at: usize,
    pub rule: &'static str,
}

/// An edit that is refused for its name.
#[derive(Clone, Copy, Debug, PartialEq, Eq)]
pub struct EditFault {
    /// The place of the name in the line; the refusal is 14 or 15.
    pub name: LineFault,
    /// The number of the row below which the name would lie.
    pub above: Option<usize>,
}

/// Stored bytes that have no room for more.
#[derive(Clone, Copy, Debug, PartialEq, Eq)]
pub struct RoomFault {
    pub stored: usize,
    pub added: usize,
    pub room: usize,
}

/// Why a frame is refused. Of a buffer that is too small (9, 10, 11) there is no more to say than
/// the number does.
#[derive(Clone, Copy, Debug, PartialEq, Eq)]
pub enum Fault {
    /// The number of the reader.
    Reader(&'static str),
    Table(ListFault),
    TableRoom(RoomFault),
    Namespaces(ListFault),
    NamespacesRoom(RoomFault),
    Line(LineFault),
    Edit(EditFault),
    /// The option byte of a walk.
    OptionByte(&'static str),
    Frame(&'static str),
}

impl Fault {
    /// What it is refused with.
    pub fn refusal(self) -> Refusal {
        match self {
            Fault::Reader(_) => Refusal::Reader,
            Fault::Table(_) | Fault::TableRoom(_) => Refusal::Table,
            Fault::Namespaces(_) | Fault::NamespacesRoom(_) => Refusal::Namespaces,
            Fault::Line(fault) => fault.refusal,
            Fault::Edit(fault) => fault.name.refusal,
            Fault::OptionByte(_) => Refusal::UnknownOption,
            Fault::Frame(_) => Refusal::Frame,
        }
    }
}
