//! A session as CSV: a record for each row, command, line, find and refusal. docs/REPORTS.md says what the
//! columns are.

use formats::csv::record;
use formats::frames::Frame;
use formats::item::{Origin, Sent};
use formats::list_line::ListLine;
use formats::namespaces::split_entries;
use formats::refusal::Refusal;
use formats::reply::Reply;
use formats::rows::{split_rows, Row};
use formats::show::{refusal_meaning, BY_LIBRARY};
use formats::words::{word_of_class, word_of_readers, words_of_flags};

use crate::data::parts::{End, Remark};
use crate::difference::SECOND;
use crate::ran::{library_text, Ran};
use crate::report::{Came, Tables};
use crate::second_program::UNPROVED;
use crate::summary::ItemVerdict;
use crate::turn::Turn;
use crate::verdict::Conclusion;

const COLUMNS: [&str; 9] =
    ["line", "item", "reader", "part", "number", "name", "flags", "readers", "text"];

/// The fields of a record after the first three.
#[derive(Clone, Debug, Default)]
struct Fields {
    part: &'static str,
    number: String,
    name: Vec<u8>,
    flags: String,
    readers: String,
    text: Vec<u8>,
}

/// The first three fields of a record.
#[derive(Clone, Debug, Default)]
struct Head {
    line: String,
    item: &'static str,
    reader: String,
}

pub fn start() -> String {
    record(COLUMNS)
}

pub fn remark(remark: Remark) -> String {
    let (item, text) = remark.kind_and_text();
    Head { item, ..Head::default() }.record(Fields::text("text", text))
}

/// An item that was sent, or walked by the library.
pub fn came(came: &Came) -> String {
    let reader = came.frame.and_then(Frame::reader);
    let reader = reader.map(|number| number.to_string()).unwrap_or_default();
    let line = match came.turn {
        Turn::Line(line) => line.to_string(),
        Turn::Own => String::new(),
    };
    let head = Head { line, item: came.kind(), reader };
    let fields =
        [sent(came), reply(came.reply), expected(came), differs(came), second_program(came)];
    head.records(fields.concat())
}

/// The table, the counts and the verdict.
pub fn end(End { summary, kept, session_sum, stopped, .. }: End, tables: &Tables) -> String {
    let head = |item| Head { item, ..Head::default() };
    let mut text = head("table").records(rows(tables.packed_given()));
    if let Some(bytes) = tables.packed_at_end() {
        text += &head("table after edits").records(rows(bytes));
    }
    text += &head("namespaces").records(entries(kept.namespaces()));
    for (what, count) in summary.counts() {
        let number = count.to_string();
        text += &head("summary").record(Fields { number, ..Fields::text("count", what) });
    }
    text += &head("session").record(Fields::text("sha256", session_sum.to_string()));
    text += &head("program").records(program_run(summary.ran()));
    if summary.large_walks() > 0 {
        text += &head("library").records(library(summary.ran()));
    }
    let (troubles, more) = summary.troubles();
    let more = (more > 0).then(|| format!("and {more} more"));
    let troubles = troubles.iter().cloned().chain(more);
    text += &head("trouble").records(troubles.map(|text| Fields::text("text", text)).collect());
    if let Some(reason) = stopped {
        text += &head("stopped").record(Fields::text("text", reason));
    }
    text + &head("verdict").records(verdict(&Conclusion::of(summary, stopped)))
}

fn program_run(ran: &Ran) -> Vec<Fields> {
    let sum = ran.sum.map(|sum| Fields::text("sha256", sum.to_string()));
    let path = [Fields::text("path", &ran.path)];
    let built = [Fields::text("text", ran.built().text())];
    path.into_iter().chain(sum).chain(built).collect()
}

fn library(ran: &Ran) -> Vec<Fields> {
    let library = ran.library.as_ref();
    let sum = library.map(|library| Fields::text("sha256", &library.sum));
    sum.into_iter().chain([Fields::text("text", library_text(library))]).collect()
}

fn verdict(conclusion: &Conclusion) -> Vec<Fields> {
    let part = if conclusion.is_green { "passed" } else { "not passed" };
    let text = Fields::text(part, conclusion.text());
    let reasons = conclusion.reasons.iter().map(|reason| Fields::text("reason", reason));
    [text].into_iter().chain(reasons).collect()
}

impl Head {
    fn records(&self, fields: Vec<Fields>) -> String {
        fields.into_iter().map(|fields| self.record(fields)).collect()
    }

    fn record(&self, fields: Fields) -> String {
        let Fields { part, number, name, flags, readers, text } = fields;
        record([
            self.line.as_bytes(),
            self.item.as_bytes(),
            self.reader.as_bytes(),
            part.as_bytes(),
            number.as_bytes(),
            &name,
            flags.as_bytes(),
            readers.as_bytes(),
            &text,
        ])
    }
}

impl Fields {
    fn text(part: &'static str, text: impl AsRef<[u8]>) -> Fields {
        Fields { part, text: text.as_ref().to_vec(), ..Fields::default() }
    }
}

/// Rows, and bytes after them that are no row.
fn rows(bytes: &[u8]) -> Vec<Fields> {
    let (rows, rest) = split_rows(bytes);
    let row = |Row { flags, readers, name }: &Row| Fields {
        part: "row",
        name: name.to_vec(),
        flags: words_of_flags(*flags),
        readers: word_of_readers(*readers),
        ..Fields::default()
    };
    rows.iter().map(row).chain(rest_of(rest)).collect()
}

/// Entries, and bytes after them that are no entry. The class stands among the flags, the delimiter is
/// the text.
fn entries(bytes: &[u8]) -> Vec<Fields> {
    let (entries, rest) = split_entries(bytes);
    let fields = entries.iter().map(|entry| Fields {
        name: entry.prefix.to_vec(),
        flags: word_of_class(entry.class).map_or(entry.class.to_string(), String::from),
        ..Fields::text("entry", entry.delimiter.map_or(b"NIL".to_vec(), |byte| vec![byte]))
    });
    fields.chain(rest_of(rest)).collect()
}

fn rest_of(rest: &[u8]) -> Option<Fields> {
    (!rest.is_empty()).then(|| Fields::text("rest", rest))
}

fn sent(came: &Came) -> Vec<Fields> {
    let Sent { frame, origin, .. } = came.sent;
    match came.frame {
        Some(Frame::Row(bytes)) => rows(bytes),
        Some(Frame::Entry(bytes)) => entries(bytes),
        Some(Frame::Command { line, .. }) => vec![Fields::text("sent", line)],
        Some(Frame::Walk { option, .. }) => {
            let text = if *origin == Origin::LargeWalk { BY_LIBRARY } else { "" };
            vec![Fields { number: option.to_string(), ..Fields::text("sent", text) }]
        }
        None => vec![Fields::text("sent", &frame.text)],
    }
}

fn reply(reply: Option<&Reply>) -> Vec<Fields> {
    match reply {
        None => Vec::new(),
        Some(Reply::Lines(text)) => {
            text.split_inclusive(|&byte| byte == b'\n').map(answer_line).collect()
        }
        Some(Reply::Walked { count, found }) => {
            let commands = Fields { number: count.to_string(), ..Fields::text("commands", "") };
            let found = found.iter().map(|name| Fields {
                part: "found",
                name: name.clone(),
                ..Fields::default()
            });
            [commands].into_iter().chain(found).collect()
        }
        Some(Reply::Refused(number)) => {
            let meaning = refusal_meaning(*number);
            vec![Fields { number: number.to_string(), ..Fields::text("refused", meaning) }]
        }
        Some(Reply::Unreadable(line)) => vec![Fields::text("unreadable", line)],
    }
}

/// Of a LIST or LSUB line its name and attributes too.
fn answer_line(line: &[u8]) -> Fields {
    let fields = Fields::text("line", line);
    match ListLine::of(line) {
        Some(ListLine { attributes, name, .. }) => {
            Fields { name, flags: attributes.join(" "), ..fields }
        }
        None => fields,
    }
}

fn expected(came: &Came) -> Vec<Fields> {
    let met = match ItemVerdict::of(came.sent, came.reply) {
        ItemVerdict::AsExpected => "as expected",
        ItemVerdict::Answered | ItemVerdict::Refused | ItemVerdict::Unmet => "not as expected",
    };
    let fields = |refusal: Refusal| Fields {
        number: refusal.number().to_string(),
        ..Fields::text("expected", met)
    };
    came.sent.expected.into_iter().map(fields).collect()
}

/// How an answer is not the second program's: in a few words, then line by line.
fn differs(came: &Came) -> Vec<Fields> {
    let lines = came.difference.iter().flat_map(|difference| {
        let short = format!("{} ({SECOND})", difference.short);
        [short].into_iter().chain(difference.lines.iter().cloned())
    });
    lines.map(|line| Fields::text("differs", line)).collect()
}

/// What is not proved, marked so.
fn second_program(came: &Came) -> Vec<Fields> {
    let hidden = came.hidden.map(|lines| lines.join("; "));
    let said =
        [("explained", came.explanation), ("effect", came.effect), ("hidden", hidden.as_deref())];
    let fields = said
        .into_iter()
        .filter_map(|(part, text)| Some(Fields::text(part, format!("{} ({UNPROVED})", text?))));
    fields.collect()
}
