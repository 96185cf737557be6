//! Why a frame is refused, what an edit does, and what is hidden from a reader, as the second program
//! sees it: the proved program decides, and says no more than the number, or its answer.

use formats::frames::Frame;
use formats::hex::hex_of;
use formats::item::{Origin, Sent};
use formats::reply::Reply;
use formats::session::own_command;
use formats::show::{beside, counted, reader_text, refusal_text};
use formats::text::{line_text, name_text, shortened};
use formats::words::word_of_readers;
use second::command::{read_command, Request};
use second::fault::{EditFault, Fault, LineFault, RoomFault};
use second::frames::{Answer, Program};
use second::namespaces::entry_at;
use second::packed::row_at;
use second::rows::{rows_below, Flags, Row};
use second::table::checked_rows;
use second::{name, Reader, Readers, Refusal, Table};

use crate::second_program::faults::list_fault_text;
use crate::second_program::short_buffers::{collect_large, short_buffer_text};
use crate::second_program::why::{explained_lines, Explained};

/// Beside every explanation.
pub const UNPROVED: &str = "explained by the second program, not proved";

/// In place of an explanation.
pub const NOT_REFUSED: &str = "the programs differ: the second one does not refuse this";
/// The sizes are counted from the rules, and no promise names them.
const NEVER_SHORT: &str = "the buffers had the sizes of include/luspemaro.h, with which this is \
                           never to be given";
/// Of bytes that are no row or entry no more digits than this are shown.
const MOST_OF_BYTES: usize = 40;
/// Of hidden rows no more than this are named.
const MOST_HIDDEN: usize = 12;

/// What a program has stored after the frames so far, and from which line each byte of it is; from the
/// first accepted edit on, its records.
#[derive(Default)]
pub struct Stored {
    program: Program,
    rows: Origins,
    entries: Origins,
}

/// Where the bytes of each frame start, and its line, in order.
type Origins = Vec<(usize, u64)>;

impl Stored {
    /// What a program has stored; of which lines it is, is not known.
    pub fn of_program(program: Program) -> Stored {
        Stored { program, ..Stored::default() }
    }

    /// The rows after the last edit, packed; none where no edit was accepted.
    pub fn rows_after_edits(&self) -> Option<Vec<u8>> {
        rows_after_edits(&self.program)
    }

    /// Whether the rows that were kept pass.
    pub fn passes(&self) -> bool {
        checked_rows(Table::Packed(&self.program.table)).is_ok()
    }

    /// The lines of an answer to a command, each with why it is there.
    pub fn explained_lines(&self, frame: Option<&Frame>, answer: &[u8]) -> Vec<Explained> {
        explained_lines(&self.program, frame, answer)
    }

    /// Stores what a frame of this line adds, where the second program takes it.
    pub fn store(&mut self, line: u64, frame: Option<&Frame>) {
        let program = &mut self.program;
        // What has no room is answered, and then explained.
        match frame {
            Some(Frame::Row(row)) => {
                self.rows.push((program.table.len(), line));
                let _ = program.store_row(row);
            }
            Some(Frame::Entry(entry)) => {
                self.entries.push((program.namespaces.len(), line));
                let _ = program.store_entry(entry);
            }
            _ => {}
        }
    }

    /// What the second program answers to a frame that is answered, and itself after it. Nothing is
    /// changed here.
    pub fn answer(&self, sent: &Sent) -> (Reply, Program) {
        if sent.origin == Origin::LargeWalk {
            return (self.large_walk(sent), self.program_now());
        }
        let mut after = self.program_now();
        let answer = if sent.frame.is_cut { None } else { after.answer(&sent.frame.text) };
        let line = answer.unwrap_or(Answer::Refused(Refusal::Frame)).to_line();
        (Reply::of(line.strip_suffix(b"\n").unwrap_or(&line)), after)
    }

    fn program_now(&self) -> Program {
        let Program { table, namespaces, store } = &self.program;
        Program { table: table.clone(), namespaces: namespaces.clone(), store: store.clone() }
    }

    /// What the second program answers to a walk with the buffers of the library.
    fn large_walk(&self, sent: &Sent) -> Reply {
        let walked = match (self.fault(sent), Frame::decode(&sent.frame.text)) {
            (Some(fault), _) => Err(fault.refusal()),
            (None, Ok(Frame::Walk { reader, option })) => {
                collect_large(&self.program, reader, option)
            }
            (None, _) => Err(Refusal::Frame),
        };
        match walked {
            Ok(walk) => walk.reply(),
            Err(refusal) => Reply::Refused(refusal.number()),
        }
    }

    /// Follows a command that was answered: an edit is made here too, as the second program made it,
    /// and its effect is returned as text.
    pub fn follow(
        &mut self,
        frame: Option<&Frame>,
        (reply, after): (Reply, Program),
    ) -> Option<String> {
        let Some(Frame::Command { line, .. }) = frame else {
            return None;
        };
        let Request::Edit(edit) = read_command(line).ok()?.request else {
            return None;
        };
        let name = name::spelled(&edit.name);
        let before = self.row_of(&name);
        self.program = after;
        Some(match reply {
            Reply::Lines(_) => effect_text(&name, before, self.row_of(&name)),
            _ => "the programs differ: the second one refuses this".to_string(),
        })
    }

    /// Why the table, or else the namespace list, does not pass; none where both do.
    pub fn table_fault(&self) -> Option<String> {
        let fault = self.program.fault(&own_command().frame.text)?;
        Some(self.text(&own_command(), fault))
    }

    /// What is hidden from the reader of a LIST, an LSUB or a walk that was answered, if anything is.
    pub fn hidden(&self, frame: Option<&Frame>) -> Option<Vec<String>> {
        let reader = match frame? {
            Frame::Command { reader, line } => match read_command(line).ok()?.request {
                Request::List(_) | Request::Lsub(_) => *reader,
                Request::Namespace | Request::Root | Request::Edit(_) => return None,
            },
            Frame::Walk { reader, .. } => *reader,
            Frame::Row(_) | Frame::Entry(_) => return None,
        };
        let reader = Reader::checked(reader).ok()?;
        let store = self.program.records().ok()?;
        let rows = checked_rows(Table::Records(store.as_records())).ok()?;
        hidden_text(&rows, reader)
    }

    /// The flags and the readers of the row of a name, if it has one.
    fn row_of(&self, name: &[u8]) -> Option<(Flags, Readers)> {
        let store = self.program.records().ok()?;
        let rows = checked_rows(Table::Records(store.as_records())).ok()?;
        rows.iter().find(|row| row.name == name).map(|row| (row.flags, row.readers))
    }

    /// Why a frame was refused with a number.
    pub fn explanation(&self, sent: &Sent, number: u8) -> String {
        let fault = self.fault(sent);
        match fault.map(|fault| (fault, fault.refusal().number())) {
            Some((fault, seen)) if seen == number => self.text(sent, fault),
            Some((_, seen)) => {
                let seen = refusal_text(seen);
                format!("the programs differ: the second one refuses this with {seen}")
            }
            None => {
                let short = self.short_buffer_text(sent, number);
                short.unwrap_or_else(|| NOT_REFUSED.to_string())
            }
        }
    }

    /// What did not fit, where a number says that a buffer is too small.
    fn short_buffer_text(&self, sent: &Sent, number: u8) -> Option<String> {
        let rooms = [Refusal::AnswerRoom, Refusal::FoundRoom, Refusal::PendingRoom];
        let refusal = rooms.into_iter().find(|room| room.number() == number)?;
        match sent.origin {
            Origin::LargeWalk => Some(NEVER_SHORT.to_string()),
            _ => short_buffer_text(&self.program, &sent.frame.text, refusal),
        }
    }

    fn fault(&self, sent: &Sent) -> Option<Fault> {
        if sent.frame.is_cut {
            return Some(Fault::Frame("the last frame ends with LF too"));
        }
        self.program.fault(&sent.frame.text)
    }

    fn text(&self, sent: &Sent, fault: Fault) -> String {
        match fault {
            Fault::Table(fault) => list_fault_text(fault, |at| Some(self.row_text(at))),
            Fault::Namespaces(fault) => list_fault_text(fault, |at| Some(self.entry_text(at))),
            Fault::TableRoom(room) | Fault::NamespacesRoom(room) => room_text(room),
            Fault::Reader(rule) => sender_text(&sent.frame.text) + rule,
            Fault::Line(fault) if fault.refusal == Refusal::Reader => {
                let text = line_fault_text(&sent.frame.text, fault);
                sender_text(&sent.frame.text) + &text
            }
            Fault::Line(fault) => line_fault_text(&sent.frame.text, fault),
            Fault::Edit(fault) => self.edit_fault_text(&sent.frame.text, fault),
            Fault::OptionByte(rule) | Fault::Frame(rule) => rule.to_string(),
        }
    }

    /// The place of the name in the command, and the row below which it would lie.
    fn edit_fault_text(&self, frame: &[u8], EditFault { name, above }: EditFault) -> String {
        let text = line_fault_text(frame, name);
        let above = above.and_then(|number| {
            let store = self.program.records().ok()?;
            let record = store.records.get(number)?;
            let name = store.area.get(record.place())?;
            let is_seen = Readers::from_bits(record.readers).has(Reader::EDITOR);
            let hidden = if is_seen { "" } else { ", which is hidden from reader 0" };
            Some(format!(" (beside {}{hidden})", in_quotes(name)))
        });
        text + &above.unwrap_or_default()
    }

    /// The line and the name of the row at a place of the table.
    fn row_text(&self, at: usize) -> String {
        let table = &self.program.table;
        let name = row_at(table, at).map(|row| in_quotes(row.name));
        origin_text(&self.rows, at) + &name.unwrap_or_else(|| rest_text(table, at))
    }

    /// The line and the prefix of the entry at a place of the list.
    fn entry_text(&self, at: usize) -> String {
        let list = &self.program.namespaces;
        let prefix = entry_at(list, at).map(|entry| in_quotes(entry.prefix));
        origin_text(&self.entries, at) + &prefix.unwrap_or_else(|| rest_text(list, at))
    }
}

/// The rows that a program has after the last edit, packed; none where it has accepted none.
pub fn rows_after_edits(program: &Program) -> Option<Vec<u8>> {
    let store = program.store.as_ref()?;
    let rows = checked_rows(Table::Records(store.as_records())).ok()?;
    Some(rows.iter().filter_map(Row::to_bytes).flatten().collect())
}

/// The rows that a reader does not see, and which of them lie above one that it sees.
fn hidden_text(rows: &[Row], reader: Reader) -> Option<Vec<String>> {
    let hidden: Vec<&Row> = rows.iter().filter(|row| !row.readers.has(reader)).collect();
    if hidden.is_empty() {
        return None;
    }
    let is_above =
        |row: &&&Row| rows_below(rows, row.name).iter().any(|row| row.readers.has(reader));
    let above: Vec<&Row> = hidden.iter().filter(is_above).copied().collect();
    let who = reader_text(reader.number());
    let count = format!("{} of {}", hidden.len(), counted(rows.len(), "row", "rows"));
    let mut lines = vec![format!("from {who}, {count}: {}", names_text(&hidden))];
    if !above.is_empty() {
        let names = names_text(&above);
        lines.push(format!(
            "of these, above what {who} sees, so that the name itself may be listed: {names}"
        ));
    }
    Some(lines)
}

fn names_text(rows: &[&Row]) -> String {
    let names: Vec<String> =
        rows.iter().take(MOST_HIDDEN).map(|row| name_text(row.name) + &beside(row.name)).collect();
    let more = rows.len().saturating_sub(MOST_HIDDEN);
    let more = if more > 0 { format!(" and {more} more") } else { String::new() };
    names.join(", ") + &more
}

/// Who sent a command or a walk, before what is wrong with that.
fn sender_text(frame: &[u8]) -> String {
    let reader = Frame::decode(frame).ok().and_then(|frame| frame.reader());
    reader.map(|reader| format!("it comes from {}: ", reader_text(reader))).unwrap_or_default()
}

/// What an edit does to the subscription of a name, and to its row; and who sees a row that not all
/// readers see.
fn effect_text(
    name: &[u8],
    before: Option<(Flags, Readers)>,
    after: Option<(Flags, Readers)>,
) -> String {
    let name = name_text(name) + &beside(name);
    let seen = after.filter(|(_, readers)| *readers != Readers::ALL);
    let seen = seen.map(|(_, readers)| format!("; {} its row", who_sees_text(readers)));
    change_text(&name, before.map(|(flags, _)| flags), after.map(|(flags, _)| flags))
        + &seen.unwrap_or_default()
}

fn who_sees_text(readers: Readers) -> String {
    let word = word_of_readers(formats::readers::Readers::from_bits(readers.bits()));
    match Reader::all().filter(|&reader| readers.has(reader)).count() {
        0 => "no reader sees".to_string(),
        1 => format!("only reader {word} sees"),
        _ => format!("only readers {word} see"),
    }
}

fn change_text(name: &str, before: Option<Flags>, after: Option<Flags>) -> String {
    let is_subscribed =
        |flags: Option<Flags>| flags.is_some_and(|flags| flags.has(Flags::SUBSCRIBED));
    match (is_subscribed(before), is_subscribed(after)) {
        (true, true) => format!("none: {name} was subscribed already"),
        (false, false) => format!("none: {name} was not subscribed"),
        (false, true) if before.is_none() => {
            format!("{name} is subscribed now; there is no such mailbox, so a row was added for it")
        }
        (false, true) => format!("{name} is subscribed now"),
        (true, false) if after.is_none() => {
            format!("{name} is not subscribed any more; its row, of no mailbox, is gone")
        }
        (true, false) => format!("{name} is not subscribed any more"),
    }
}

/// The line of the frame that a byte was stored by.
fn origin_text(origins: &[(usize, u64)], at: usize) -> String {
    let before = &origins[..origins.partition_point(|&(start, _)| start <= at)];
    before.last().map(|(_, line)| format!("line {line}: ")).unwrap_or_default()
}

fn rest_text(bytes: &[u8], at: usize) -> String {
    let digits = line_text(&hex_of(bytes.get(at..).unwrap_or_default()));
    format!("bytes {}", shortened(&digits, MOST_OF_BYTES))
}

fn room_text(RoomFault { stored, added, room }: RoomFault) -> String {
    format!("no room: {stored} of {room} bytes are taken, and this has {added}")
}

fn line_fault_text(frame: &[u8], LineFault { at, rule, .. }: LineFault) -> String {
    let Ok(Frame::Command { line, .. }) = Frame::decode(frame) else {
        return rule.to_string();
    };
    match line.get(at..) {
        None | Some(b"" | b"\r\n") => format!("the end of the command, after {at} bytes: {rule}"),
        Some([byte, ..]) => {
            format!("byte {} of the command, {}: {rule}", at + 1, in_quotes(&[*byte]))
        }
    }
}

fn in_quotes(bytes: &[u8]) -> String {
    format!("'{}'", line_text(bytes))
}
