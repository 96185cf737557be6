//! A recorded answer of a server to LIST and LSUB.
//!
//! Every untagged LIST and LSUB line is read, after whatever a record of a session writes before it
//! ([`crate::marks`]). Of the other lines each that may be an answer ([`crate::mention`]) is left out by
//! its number and its text; the rest have no mailboxes and are counted. A file may hold several answers:
//! what they say of one name is brought together. A LIST line says that a mailbox exists, unless it has
//! `\NonExistent`; an LSUB line says that its name is subscribed, unless it has `\Noselect`, which marks a
//! level above subscribed names (RFC 3501, 6.3.9).

use formats::rows::Flags;
use formats::text::line_text;

use crate::answer_lines::AnswerLines;
use crate::found::{Found, Said};
use crate::mention::may_be_answer;
use crate::response::{Cursor, Response, Word};
use crate::told::Told;

/// The attributes that flags stand for, in small letters.
const FLAGS: [(&[u8], Flags); 13] = [
    (b"\\subscribed", Flags::SUBSCRIBED),
    (b"\\remote", Flags::REMOTE),
    (b"\\noselect", Flags::NO_SELECT),
    (b"\\noinferiors", Flags::NO_INFERIORS),
    (b"\\marked", Flags::MARKED),
    (b"\\unmarked", Flags::UNMARKED),
    (b"\\all", Flags::ALL),
    (b"\\archive", Flags::ARCHIVE),
    (b"\\drafts", Flags::DRAFTS),
    (b"\\flagged", Flags::FLAGGED),
    (b"\\junk", Flags::JUNK),
    (b"\\sent", Flags::SENT),
    (b"\\trash", Flags::TRASH),
];
const NON_EXISTENT: &[u8] = b"\\nonexistent";
/// What the table itself says, of any name.
const DERIVED: [&[u8]; 2] = [b"\\haschildren", b"\\hasnochildren"];
/// What the table itself says of names below.
const DERIVED_TAG: &[u8] = b"CHILDINFO";

/// No literal that ends after so many bytes of a response is one of a name.
const MOST_RESPONSE: usize = 1 << 12;

/// Everything that an answer says. None where no line is an answer, nor may be one.
pub fn read_answer(bytes: &[u8], told: &mut Told) -> Option<Vec<Found>> {
    let mut reading = Reading::of(AnswerLines::of(bytes), told);
    let mut at = 0;
    while at < reading.record.length() {
        at += reading.lines_at(at);
    }
    reading.finished()
}

struct Reading<'t, 'o> {
    record: AnswerLines<'t>,
    told: &'o mut Told,
    all_found: Vec<Found>,
    has_list: bool,
    has_lsub: bool,
    /// Whether a line may have been an answer, and was not read.
    has_missed: bool,
    others: Others,
}

impl<'t, 'o> Reading<'t, 'o> {
    fn of(record: AnswerLines<'t>, told: &'o mut Told) -> Reading<'t, 'o> {
        let (has_list, has_lsub, has_missed) = (false, false, false);
        let (all_found, others) = (Vec::new(), Others::default());
        Reading { record, told, all_found, has_list, has_lsub, has_missed, others }
    }

    fn finished(self) -> Option<Vec<Found>> {
        self.others.tell(self.told);
        if self.has_lsub && !self.has_list {
            self.told.note("the answer", "it has no LIST line, so no mailbox is known to exist");
        }
        (self.has_list || self.has_lsub || self.has_missed).then_some(self.all_found)
    }

    /// Reads what starts in a line. How many lines that has.
    fn lines_at(&mut self, at: usize) -> usize {
        let line = self.record.marked(at);
        match Word::split(&line.text) {
            Some((word, _)) => self.listing_at(word, at),
            None => self.other_at(at, line.is_untagged()),
        }
    }

    /// A LIST or LSUB line. One that cannot be read hides no line after it: what looked like its literal
    /// may be the next line, where the record leaves literals out.
    fn listing_at(&mut self, word: Word, at: usize) -> usize {
        self.has_list |= word == Word::List;
        self.has_lsub |= word == Word::Lsub;
        let text = self.record.response(at, MOST_RESPONSE);
        let mut after = Cursor::new(Word::split(&text).map_or(b"", |(_, rest)| rest));
        let origin = line_origin(at);
        match after.response(word) {
            Ok(response) => {
                self.all_found.extend(found_of(&origin, response, self.told));
                let count = line_count(&text, after.rest());
                self.miss_within(at, count);
                count
            }
            Err(reason) => {
                let line = line_text(self.record.line(at));
                self.told.not_taken(&origin, &format!("cannot be read: {reason}: {line}"));
                1
            }
        }
    }

    /// A line that is neither, with its literals if it is untagged or appends a message: what stands in a
    /// literal is no line.
    fn other_at(&mut self, at: usize, is_untagged: bool) -> usize {
        let count = if is_untagged {
            line_count(&self.record.response(at, usize::MAX), b"")
        } else {
            self.record.append_length(at).unwrap_or(1)
        };
        self.other_line(at);
        self.miss_within(at, count);
        count
    }

    /// Lines in the literals of a response that has so many lines.
    fn miss_within(&mut self, at: usize, count: usize) {
        for inner in at + 1..at + count {
            if may_be_answer(self.record.line(inner)) {
                self.miss(inner, &format!("within a literal of line {}, not read", at + 1));
            }
        }
    }

    /// An empty line says nothing. A word such as XLIST may name mailboxes.
    fn other_line(&mut self, at: usize) {
        let line = self.record.line(at);
        let text = self.record.marked(at).text;
        let mut words = text.split(|&byte| byte == b' ').filter(|word| !word.is_empty());
        let is_untagged = words.next() == Some(b"*");
        let word = words.next().unwrap_or_default().to_ascii_uppercase();
        if is_untagged && (word.ends_with(b"LIST") || word.ends_with(b"LSUB")) {
            self.miss(at, "neither LIST nor LSUB, not read");
        } else if may_be_answer(line) {
            self.miss(at, "like an answer, and not at the start of a line of the server, not read");
        } else if !line.trim_ascii().is_empty() {
            self.others.count(at, line);
        }
    }

    fn miss(&mut self, at: usize, reason: &str) {
        self.has_missed = true;
        let line = line_text(self.record.line(at));
        self.told.not_taken(&line_origin(at), &format!("{reason}: {line}"));
    }
}

fn line_origin(at: usize) -> String {
    format!("line {}", at + 1)
}

/// How many lines, at least one, a text has before what is left of it.
fn line_count(text: &[u8], rest: &[u8]) -> usize {
    let used = &text[..text.len() - rest.len()];
    let ends = used.iter().filter(|&&byte| byte == b'\n').count();
    ends + usize::from(!used.ends_with(b"\n"))
}

/// What one response says, or none for the root, which is no mailbox.
pub(crate) fn found_of(origin: &str, response: Response, told: &mut Told) -> Option<Found> {
    let Response { word, attributes, delimiter, name, tags } = response;
    if name.is_empty() {
        told.note(origin, "the root, which is no mailbox");
        return None;
    }
    let mut flags = Flags::IMPLIED;
    let mut exists = true;
    for attribute in &attributes {
        let lower = attribute.to_ascii_lowercase();
        let flag = FLAGS.iter().find(|(word, _)| *word == lower).map(|(_, flag)| *flag);
        match flag {
            Some(flag) => flags.add(flag),
            None if lower == NON_EXISTENT => exists = false,
            None if DERIVED.contains(&lower.as_slice()) => {}
            None => {
                let attribute = line_text(attribute);
                let reason = format!("{attribute} is an attribute for which there is no flag");
                told.left_out(origin, &name, &reason);
            }
        }
    }
    for tag in tags.iter().filter(|tag| !tag.eq_ignore_ascii_case(DERIVED_TAG)) {
        let reason = format!("{} is extended data that no row has", line_text(tag));
        told.left_out(origin, &name, &reason);
    }
    let said = match word {
        Word::List => said_by_list(flags, exists),
        Word::Lsub => said_by_lsub(flags),
    };
    Some(Found { origin: origin.to_string(), name, delimiter, said })
}

/// `\NonExistent` says `\Noselect` too (RFC 5258, 3).
fn said_by_list(mut flags: Flags, exists: bool) -> Said {
    if exists {
        return Said::Exists(flags.with(Flags::EXISTS));
    }
    let is_subscribed = flags.has(Flags::SUBSCRIBED);
    flags.remove(Flags::SUBSCRIBED.with(Flags::NO_SELECT));
    if is_subscribed {
        Said::Subscribed(flags)
    } else {
        Said::Level(flags)
    }
}

fn said_by_lsub(mut flags: Flags) -> Said {
    let is_level = flags.has(Flags::NO_SELECT);
    flags.remove(Flags::SUBSCRIBED.with(Flags::NO_SELECT));
    if is_level {
        Said::Level(flags)
    } else {
        Said::Subscribed(flags)
    }
}

/// Lines without a mailbox.
#[derive(Default)]
struct Others {
    count: usize,
    /// The first of them: where it stands, and its text.
    first: Option<(String, String)>,
}

impl Others {
    fn count(&mut self, at: usize, line: &[u8]) {
        self.count += 1;
        self.first.get_or_insert_with(|| (line_origin(at), line_text(line)));
    }

    fn tell(&self, told: &mut Told) {
        if let Some((origin, line)) = &self.first {
            let text = format!("the first of {} without a mailbox, not read: {line}", self.count);
            told.note(origin, &text);
        }
    }
}
