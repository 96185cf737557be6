//! The server side's command entry: the order of refusals, the answer in a lent buffer, and the
//! edit of a lent table.

use crate::command::{read_command, Command, EditRequest, Request};
use crate::fault::{Fault, LineFault};
use crate::line::{put_answer, ROOT_LINE};
use crate::listing::list_lines;
use crate::lsub::lsub_lines;
use crate::namespaces::{checked_entries, namespace_line, Entry};
use crate::readers::Reader;
use crate::records::RecordsMut;
use crate::refusal::Refusal;
use crate::rows::{visible_rows, Row};
use crate::subscriptions::{edited, Edited};
use crate::table::{checked_rows, Table};

/// What comes of a command that is not refused.
#[derive(Clone, Copy, Debug, PartialEq, Eq)]
pub struct Answered {
    /// The answer's length.
    pub length: usize,
    /// Whether it was an edit, be it one that changed no row.
    pub is_edit: bool,
    /// Whether a row changed, came or went.
    pub changed: bool,
}

/// Answers one command line that comes from a reader. An edit that is accepted changes the table and
/// its count.
///
/// "Server order: 1, 2, 3, tag 4, 5, rest 4, 6, 7, 8, 9. A refusal has length 0 and no buffer
/// byte changes; on success the bytes behind the answer stay as they were." Of an edit, "The order
/// is 14, 15, then 9, all before any change." (document 02, W6) A reader above 7 is 16, "checked before
/// 1"; an edit from another reader than 0 is "16, just before 14" (W9).
pub fn answer(
    reader: u8,
    table: &mut RecordsMut,
    namespaces: &[u8],
    line: &[u8],
    out: &mut [u8],
) -> Result<Answered, Refusal> {
    let lent = Table::Records(table.as_records());
    let (answered, edited) = decide(reader, lent, namespaces, line, out)?;
    if let Some(edited) = edited {
        edited.store(table);
    }
    Ok(answered)
}

/// The same over a table that is lent for reading, in either form: an edit is judged and answered,
/// and changes nothing. A packed table has no record that is spare.
pub fn answer_reading(
    reader: u8,
    table: Table,
    namespaces: &[u8],
    line: &[u8],
    out: &mut [u8],
) -> Result<usize, Refusal> {
    decide(reader, table, namespaces, line, out).map(|(answered, _)| answered.length)
}

/// Why a command is refused with 1 to 8 or 14 to 16, or none if it is not.
pub fn command_fault(reader: u8, table: Table, namespaces: &[u8], line: &[u8]) -> Option<Fault> {
    checked(reader, table, namespaces, line).err()
}

/// Every refusal, then the answer; what an edit leaves is not stored yet.
fn decide(
    reader: u8,
    table: Table,
    namespaces: &[u8],
    line: &[u8],
    out: &mut [u8],
) -> Result<(Answered, Option<Edited>), Refusal> {
    let checked = checked(reader, table, namespaces, line).map_err(Fault::refusal)?;
    let mut text = match &checked.command.request {
        Request::Namespace => namespace_line(&checked.entries),
        Request::Root => ROOT_LINE.to_vec(),
        Request::List(request) => list_lines(&checked.rows, request),
        Request::Lsub(request) => lsub_lines(&checked.rows, request),
        Request::Edit(_) => Vec::new(),
    };
    text.extend_from_slice(checked.command.tag);
    text.extend_from_slice(b" OK done\r\n");
    let length = put_answer(&text, out)?;
    let edited = checked.edited;
    let changed = edited.as_ref().is_some_and(|edited| edited.changed);
    Ok((Answered { length, is_edit: edited.is_some(), changed }, edited))
}

/// What a command is answered from.
struct Checked<'i> {
    /// Those that the reader sees.
    rows: Vec<Row<'i>>,
    entries: Vec<Entry<'i>>,
    command: Command<'i>,
    /// What an edit leaves.
    edited: Option<Edited>,
}

fn checked<'i>(
    reader: u8,
    table: Table<'i>,
    namespaces: &'i [u8],
    line: &'i [u8],
) -> Result<Checked<'i>, Fault> {
    let reader = Reader::checked(reader)?;
    let rows = checked_rows(table).map_err(Fault::Table)?;
    let entries = checked_entries(namespaces).map_err(Fault::Namespaces)?;
    let command = read_command(line).map_err(Fault::Line)?;
    let edited = match &command.request {
        Request::Edit(request) => {
            check_editor(reader, request).map_err(Fault::Line)?;
            Some(edited(table, request).map_err(Fault::Edit)?)
        }
        _ => None,
    };
    Ok(Checked { rows: visible_rows(&rows, reader), entries, command, edited })
}

/// "edits are allowed to reader 0 only (else 16 …)", be it an edit that would change nothing.
fn check_editor(reader: Reader, request: &EditRequest) -> Result<(), LineFault> {
    let rule = "edits are allowed to reader 0 only";
    if reader == Reader::EDITOR {
        Ok(())
    } else {
        Err(LineFault { refusal: Refusal::Reader, at: request.word_at, rule })
    }
}
