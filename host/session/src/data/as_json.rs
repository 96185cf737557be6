//! A session as one JSON document. docs/REPORTS.md says what its members are.

use formats::frames::Frame;
use formats::item::{Origin, Sent};
use formats::json::Json;
use formats::list_line::ListLine;
use formats::namespaces::{split_entries, Entry};
use formats::readers::{Reader, Readers};
use formats::reply::Reply;
use formats::rows::{split_rows, Flags, Row};
use formats::show::{refusal_meaning, BY_LIBRARY};
use formats::utf7::decoded;
use formats::words::word_of_class;

use crate::data::parts::{End, Remark};
use crate::difference::{Disagreement, SECOND};
use crate::ran::{library_text, Built};
use crate::report::{Came, Tables};
use crate::second_program::UNPROVED;
use crate::summary::{ItemVerdict, OwnCheck, RunSummary};
use crate::turn::Turn;
use crate::verdict::Conclusion;

type Members = Vec<(&'static str, Json)>;

pub const START: &str = "{\"format\": \"luspemaro session 1\",\n\"items\": [\n";

pub fn remark(remark: Remark) -> Json {
    let (kind, text) = remark.kind_and_text();
    Json::Object(vec![("item", Json::text(kind)), ("text", Json::text(text))])
}

/// An item that was sent, or walked by the library.
pub fn came(came: &Came) -> Json {
    let line = match came.turn {
        Turn::Line(line) => Json::Number(line),
        Turn::Own => Json::Null,
    };
    let mut members = vec![("line", line), ("item", Json::text(came.kind()))];
    members.extend(sent(came));
    members.push(("reply", reply(came.reply)));
    let expected = came.sent.expected.map(|refusal| Json::Number(refusal.number().into()));
    members.push(("expected", Json::or_null(expected)));
    let verdict = ItemVerdict::of(came.sent, came.reply);
    let as_expected = matches!(verdict, ItemVerdict::Answered | ItemVerdict::AsExpected);
    members.push(("as_expected", Json::Bool(as_expected)));
    members.push(("differs", differs(came.difference)));
    members.extend(second_program(came));
    Json::Object(members)
}

/// How an answer is not the second program's, line by line; null where it is.
fn differs(difference: Option<&Disagreement>) -> Json {
    Json::or_null(difference.map(|Disagreement { short, lines }| {
        Json::Object(vec![
            ("short", Json::text(short)),
            ("lines", Json::texts(lines.iter().cloned())),
            ("standing", Json::text(SECOND)),
        ])
    }))
}

/// The table, the counts, the verdict, and the end of the document.
pub fn end(end: End, tables: &Tables) -> String {
    let End { summary, kept, session_sum, stopped, .. } = end;
    let counts = summary.counts();
    let counts = counts.map(|(what, count)| (what, Json::number(count))).to_vec();
    let at_end = tables.packed_at_end().map(|rows| {
        let by = ("by", Json::text("the second program, not proved"));
        Json::Object([table(rows), vec![by]].concat())
    });
    let members = [
        ("table", Json::Object([table(tables.packed_given()), vec![passes(tables)]].concat())),
        ("table_after_edits", Json::or_null(at_end)),
        ("namespaces", Json::Object(entries(kept.namespaces()))),
        ("counts", Json::Object(counts)),
        ("session_sha256", Json::text(session_sum.to_string())),
        ("program", program_run(summary)),
        ("library", library(summary)),
        ("own_check", own_check(summary)),
        ("troubles", troubles(summary)),
        ("stopped", Json::or_null(stopped.map(Json::text))),
        ("verdict", verdict(&Conclusion::of(summary, stopped))),
    ];
    let members = members.map(|(name, value)| format!(",\n\"{name}\": {value}"));
    format!("\n]{}}}\n", members.concat())
}

fn program_run(summary: &RunSummary) -> Json {
    let ran = summary.ran();
    Json::Object(vec![
        ("path", Json::text(&ran.path)),
        ("sha256", Json::or_null(ran.sum.map(|sum| Json::text(sum.to_string())))),
        ("built_by_proof", Json::Bool(ran.built() == Built::ByProof)),
        ("text", Json::text(ran.built().text())),
    ])
}

/// The library of the large walks; null where there were none.
fn library(summary: &RunSummary) -> Json {
    if summary.large_walks() == 0 {
        return Json::Null;
    }
    let library = summary.ran().library.as_ref();
    Json::Object(vec![
        ("sha256", Json::or_null(library.map(|library| Json::text(&library.sum)))),
        ("built_by_proof", Json::Bool(library.is_some_and(|library| library.is_proved))),
        ("text", Json::text(library_text(library))),
    ])
}

/// Null where the session itself asked.
fn own_check(summary: &RunSummary) -> Json {
    Json::or_null(summary.own_check().map(|own| match own {
        OwnCheck::Passed => Json::text("passed"),
        OwnCheck::Refused(number) => Json::Number(number.into()),
    }))
}

/// What is reported on standard error.
fn troubles(summary: &RunSummary) -> Json {
    let (troubles, more) = summary.troubles();
    Json::Object(vec![
        ("texts", Json::texts(troubles.iter().cloned())),
        ("more", Json::number(more)),
    ])
}

fn verdict(conclusion: &Conclusion) -> Json {
    Json::Object(vec![
        ("all_checks_passed", Json::Bool(conclusion.is_green)),
        ("text", Json::text(conclusion.text())),
        ("reasons", Json::texts(conclusion.reasons.iter().cloned())),
    ])
}

/// A name as bytes, and what it says where it is in modified UTF-7.
pub fn name_members(name: &[u8]) -> Members {
    let says = decoded(name).map(|says| ("says", Json::text(says)));
    [("name", Json::bytes(name))].into_iter().chain(says).collect()
}

/// What a row says beside its name. The number has the bits that no word stands for too.
pub fn row_members(flags: Flags, readers: Readers) -> Members {
    let words = Flags::NAMED.into_iter().filter(|(_, flag)| flags.has(*flag));
    let numbers = Reader::all().filter(|&reader| readers.has(reader));
    vec![
        ("flags", Json::texts(words.map(|(word, _)| word))),
        ("flag_bits", Json::Number(flags.bits().into())),
        ("readers", Json::list(numbers.map(|reader| Json::Number(reader.number().into())))),
    ]
}

fn passes(tables: &Tables) -> (&'static str, Json) {
    ("passes_by_second_program", Json::Bool(tables.passes()))
}

/// Rows, and bytes after them that are no row.
fn table(bytes: &[u8]) -> Members {
    let (rows, rest) = split_rows(bytes);
    let row = |Row { flags, readers, name }: &Row| {
        Json::Object([name_members(name), row_members(*flags, *readers)].concat())
    };
    vec![("rows", Json::list(rows.iter().map(row))), ("rest", Json::bytes(rest))]
}

/// Entries, and bytes after them that are no entry.
fn entries(bytes: &[u8]) -> Members {
    let (entries, rest) = split_entries(bytes);
    let entry = |Entry { class, prefix, delimiter }: &Entry| {
        let word = word_of_class(*class).map(Json::text);
        Json::Object(vec![
            ("class", word.unwrap_or(Json::Number((*class).into()))),
            ("prefix", Json::bytes(prefix)),
            ("delimiter", Json::or_null(delimiter.map(|byte| Json::bytes(&[byte])))),
        ])
    };
    vec![("entries", Json::list(entries.iter().map(entry))), ("rest", Json::bytes(rest))]
}

fn sent(came: &Came) -> Members {
    let Sent { frame, length, origin, .. } = came.sent;
    match came.frame {
        Some(Frame::Row(bytes)) => table(bytes),
        Some(Frame::Entry(bytes)) => entries(bytes),
        Some(Frame::Command { reader, line }) => {
            vec![("reader", Json::Number((*reader).into())), ("command", Json::bytes(line))]
        }
        Some(Frame::Walk { reader, option }) => {
            let by = match origin {
                Origin::LargeWalk => BY_LIBRARY,
                _ => "the program of frames",
            };
            let (reader, option) = (Json::Number((*reader).into()), Json::Number((*option).into()));
            vec![("reader", reader), ("option", option), ("by", Json::text(by))]
        }
        None => vec![
            ("frame", Json::bytes(&frame.text)),
            ("frame_length", Json::Number(*length)),
            ("without_lf", Json::Bool(frame.is_cut)),
        ],
    }
}

/// Null where a row or an entry was kept.
fn reply(reply: Option<&Reply>) -> Json {
    Json::Object(match reply {
        None => return Json::Null,
        Some(Reply::Lines(text)) => {
            let lines = text.split_inclusive(|&byte| byte == b'\n').map(answer_line);
            vec![("lines", Json::list(lines))]
        }
        Some(Reply::Walked { count, found }) => {
            let found = found.iter().map(|name| Json::Object(name_members(name)));
            vec![("commands", Json::Number((*count).into())), ("found", Json::list(found))]
        }
        Some(Reply::Refused(number)) => vec![
            ("refused", Json::Number((*number).into())),
            ("meaning", Json::text(refusal_meaning(*number))),
        ],
        Some(Reply::Unreadable(line)) => vec![("unreadable", Json::bytes(line))],
    })
}

/// A line with its CR LF; of a LIST or LSUB line its parts too.
fn answer_line(line: &[u8]) -> Json {
    let mut members = vec![("text", Json::bytes(line))];
    if let Some(ListLine { word, attributes, name, childinfo }) = ListLine::of(line) {
        members.push(("word", Json::text(word.word())));
        members.extend(name_members(&name));
        members.push(("attributes", Json::texts(attributes)));
        members.push(("childinfo", Json::texts(childinfo)));
    }
    Json::Object(members)
}

/// What is not proved, marked so.
fn second_program(came: &Came) -> Members {
    let said = [("explained", came.explanation), ("effect", came.effect)];
    let said = said.into_iter().filter_map(|(what, text)| Some((what, Json::text(text?))));
    let hidden = came.hidden.map(|lines| ("hidden", Json::texts(lines.iter().cloned())));
    let mut members: Members = said.chain(hidden).collect();
    if members.is_empty() {
        return Vec::new();
    }
    members.push(("standing", Json::text(UNPROVED)));
    vec![("second_program", Json::Object(members))]
}
