//! The collector: walks a table by sending it commands and reading its lines.

use crate::fault::Fault;
use crate::line::{read_line, Attributes, Criteria, Line};
use crate::name::descendant_prefix;
use crate::quoted::push_quoted;
use crate::readers::Reader;
use crate::refusal::Refusal;
use crate::server::answer_reading;
use crate::table::{checked_rows, Table};

/// The option byte: 1 asks for REMOTE, 2 for SPECIAL-USE, 4 drops SUBSCRIBED.
pub const OPTION_REMOTE: u8 = 1;
pub const OPTION_SPECIAL_USE: u8 = 2;
pub const OPTION_WITHOUT_SUBSCRIBED: u8 = 4;
pub const MAX_OPTION: u8 = 7;

/// "The collector's promise then allows no number but 1, 6, 9, 10, 11 and W9's 16" (document 02, W12)
pub const WALK_REFUSALS: [Refusal; 6] = [
    Refusal::Table,
    Refusal::UnknownOption,
    Refusal::AnswerRoom,
    Refusal::FoundRoom,
    Refusal::PendingRoom,
    Refusal::Reader,
];

/// "Its namespace list is empty."
const NO_NAMESPACES: &[u8] = &[];

/// What a walk asks for.
#[derive(Clone, Copy)]
struct WalkOptions {
    criteria: Criteria,
    remote: bool,
}

/// Names in lent memory, "each as a length byte and the name", one behind the other.
struct Names<'b> {
    bytes: &'b mut [u8],
    used: usize,
}

/// The walk of a table for a reader. The result is the number of commands sent and the length of found, or
/// one of [`WALK_REFUSALS`].
///
/// "On success pending holds its names; room behind the lengths, and all scratch, is zero."
/// "Its refusals give count 0 and length 0 and zero all three buffers."
pub fn collect(
    reader: u8,
    table: Table,
    option: u8,
    scratch: &mut [u8],
    found: &mut [u8],
    pending: &mut [u8],
) -> Result<(usize, usize), Refusal> {
    let mut found = Names { bytes: found, used: 0 };
    let mut pending = Names { bytes: pending, used: 0 };
    let result = walk(reader, table, option, scratch, &mut found, &mut pending);
    scratch.fill(0);
    if result.is_err() {
        found.used = 0;
        pending.used = 0;
    }
    found.clear_behind();
    pending.clear_behind();
    result.map(|count| (count, found.used))
}

/// The commands of a walk with an option byte that leaves these names in pending, where zeros may stand
/// after them; none if the option byte is not lawful. "a command is made from the option byte and, after the
/// first, a pending name alone"
pub fn own_commands(option: u8, pending: &[u8]) -> Option<Vec<Vec<u8>>> {
    let options = WalkOptions::from_byte(option)?;
    let mut commands = vec![options.command(b"")];
    let mut rest = pending;
    while let Some((name, after)) = split_name(rest).filter(|(name, _)| !name.is_empty()) {
        commands.push(options.command(&descendant_prefix(name)));
        rest = after;
    }
    Some(commands)
}

/// Why a walk is refused with 16, 1 or 6, or none if it is not.
pub fn walk_fault(reader: u8, table: Table, option: u8) -> Option<Fault> {
    checked(reader, table, option).err()
}

/// The command that a walk sends below a name, or with none for the top level; none for an option byte
/// that is not lawful.
pub fn walk_command(option: u8, below: Option<&[u8]>) -> Option<Vec<u8>> {
    let reference = below.map(descendant_prefix).unwrap_or_default();
    WalkOptions::from_byte(option).map(|options| options.command(&reference))
}

fn checked(reader: u8, table: Table, option: u8) -> Result<WalkOptions, Fault> {
    Reader::checked(reader)?;
    checked_rows(table).map_err(Fault::Table)?;
    let rule = "an option byte is 0 to 7, and 4 stands beside 2";
    WalkOptions::from_byte(option).ok_or(Fault::OptionByte(rule))
}

/// "Collector order: 1, 6, then the walk"; a reader above 7 is 16, "checked before 1" (W9). Each command
/// comes from the reader. Gives the number of commands sent.
fn walk(
    reader: u8,
    table: Table,
    option: u8,
    scratch: &mut [u8],
    found: &mut Names,
    pending: &mut Names,
) -> Result<usize, Refusal> {
    let options = checked(reader, table, option).map_err(Fault::refusal)?;
    let table = table.counted();
    let mut reference = Vec::new();
    let mut asked = 0;
    let mut count = 0;
    loop {
        let command = options.command(&reference);
        // No own command is refused with another number than 9 (W12).
        let answered = answer_reading(reader, table, NO_NAMESPACES, &command, scratch);
        let length = answered.map_err(|_| Refusal::AnswerRoom)?;
        count += 1;
        take_lines(&scratch[..length], options, found, pending)?;
        let Some((name, behind)) = pending.name_at(asked) else {
            return Ok(count);
        };
        reference = descendant_prefix(name);
        asked = behind;
    }
}

/// Each answer line is read back; the last one is the tagged OK line. "by line 10 before 11" A line that is
/// not read is neither a find nor pending; the server writes none.
fn take_lines(
    answer: &[u8],
    options: WalkOptions,
    found: &mut Names,
    pending: &mut Names,
) -> Result<(), Refusal> {
    let lines = answer.split_inclusive(|&byte| byte == b'\n');
    for text in lines.take_while(|line| line.starts_with(b"* ")) {
        let Ok(line) = read_line(text) else { continue };
        if options.is_find(&line) && !found.push(&line.name) {
            return Err(Refusal::FoundRoom);
        }
        if !line.childinfo.is_empty() && !pending.push(&line.name) {
            return Err(Refusal::PendingRoom);
        }
    }
    Ok(())
}

impl WalkOptions {
    /// "Option byte 4 lets the collector drop SUBSCRIBED, legal only with 2 (else 6; a byte above
    /// 7 is 6)." (W3)
    fn from_byte(option: u8) -> Option<WalkOptions> {
        let mut criteria = Criteria::NONE;
        if option & OPTION_WITHOUT_SUBSCRIBED == 0 {
            criteria.add(Criteria::SUBSCRIBED);
        }
        if option & OPTION_SPECIAL_USE != 0 {
            criteria.add(Criteria::SPECIAL_USE);
        }
        let is_lawful = option <= MAX_OPTION && !criteria.is_empty();
        is_lawful.then_some(WalkOptions { criteria, remote: option & OPTION_REMOTE != 0 })
    }

    /// "It sends tag `w`, selection in the order SUBSCRIBED RECURSIVEMATCH SPECIAL-USE REMOTE,
    /// reference "" first and later each pending name and "/", pattern "%"."
    fn command(self, reference: &[u8]) -> Vec<u8> {
        let mut selection = Vec::new();
        if self.criteria.has(Criteria::SUBSCRIBED) {
            selection.push("SUBSCRIBED");
        }
        selection.push("RECURSIVEMATCH");
        if self.criteria.has(Criteria::SPECIAL_USE) {
            selection.push("SPECIAL-USE");
        }
        if self.remote {
            selection.push("REMOTE");
        }
        let mut command = format!("w LIST ({}) ", selection.join(" ")).into_bytes();
        push_quoted(&mut command, reference);
        command.extend_from_slice(b" \"%\"\r\n");
        command
    }

    /// "A line is a find if it has `\Subscribed`, has no `\Remote` unless REMOTE was asked, and
    /// has a use if SPECIAL-USE was." Where SUBSCRIBED is dropped, "A find then is a line with a
    /// use, under the same rule for remote." (W3)
    fn is_find(self, line: &Line) -> bool {
        let attributes = Attributes::from_bits(line.attrs);
        (attributes.has(Attributes::SUBSCRIBED) || !self.criteria.has(Criteria::SUBSCRIBED))
            && (!attributes.has(Attributes::REMOTE) || self.remote)
            && (attributes.has(Attributes::USES) || !self.criteria.has(Criteria::SPECIAL_USE))
    }
}

impl Names<'_> {
    /// Adds a name of at most 200 bytes at the end; false, and nothing added, if it does not fit.
    fn push(&mut self, name: &[u8]) -> bool {
        let Some(room) = self.bytes[self.used..].get_mut(..1 + name.len()) else {
            return false;
        };
        room[0] = name.len() as u8;
        room[1..].copy_from_slice(name);
        self.used += room.len();
        true
    }

    /// The name whose length byte is at a place, and the place behind it.
    fn name_at(&self, at: usize) -> Option<(&[u8], usize)> {
        let (name, _) = split_name(&self.bytes[at..self.used])?;
        Some((name, at + 1 + name.len()))
    }

    fn clear_behind(&mut self) {
        self.bytes[self.used..].fill(0);
    }
}

/// The first of some names, and what stands after it.
fn split_name(names: &[u8]) -> Option<(&[u8], &[u8])> {
    let (&length, rest) = names.split_first()?;
    Some(rest.split_at(usize::from(length)))
}
