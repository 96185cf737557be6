//! Why each line of an answer is there, as the second program sees it. The proved program decides.

use formats::frames::Frame;
use formats::list_line::{LineWord, ListLine};
use formats::show::beside;
use formats::text::name_text;
use formats::words::words_of_flags;
use second::command::{read_command, ListRequest, LsubRequest, Request, Selection};
use second::frames::Program;
use second::rows::{rows_below, Flags, Row};
use second::table::checked_rows;
use second::{ends_in_percent, matches, meets_criteria, Reader, Records, Table};

/// One line of an answer, without its CR LF, and why it is there.
pub struct Explained {
    pub line: Vec<u8>,
    /// Of the tagged line at the end there is nothing to say.
    pub why: Option<Why>,
}

pub struct Why {
    pub kind: Kind,
    pub text: String,
}

#[derive(Clone, Copy, Debug, PartialEq, Eq)]
pub enum Kind {
    Criteria,
    RecursiveMatch,
    /// Document 02, W1: a level above mailboxes.
    Level,
    /// LSUB: a subscribed name.
    Subscribed,
    /// LSUB with `\Noselect`.
    AboveSubscribed,
    Root,
    Namespaces,
    /// The second program would not give this line.
    Unexplained,
}

impl Kind {
    /// For the page's own markup.
    pub fn word(self) -> &'static str {
        match self {
            Kind::Criteria => "criteria",
            Kind::RecursiveMatch => "recursivematch",
            Kind::Level => "level",
            Kind::Subscribed => "lsub",
            Kind::AboveSubscribed => "lsub-noselect",
            Kind::Root => "root",
            Kind::Namespaces => "namespaces",
            Kind::Unexplained => "unexplained",
        }
    }
}

/// What a command asks, over the rows that its reader sees.
struct Question<'t> {
    rows: Vec<Row<'t>>,
    request: Request,
}

/// The lines of an answer to a command, over what the program has stored.
pub fn explained_lines(program: &Program, frame: Option<&Frame>, answer: &[u8]) -> Vec<Explained> {
    let store = program.records().ok();
    let asked = store.as_ref().and_then(|store| Question::by(frame?, store.as_records()));
    let explained = |line: &[u8]| {
        let why = asked.as_ref().and_then(|asked| asked.why(line));
        Explained {
            line: line.strip_suffix(b"\r\n").unwrap_or(line).to_vec(),
            why: line.starts_with(b"* ").then(|| why.unwrap_or_else(unexplained)),
        }
    };
    answer.split_inclusive(|&byte| byte == b'\n').map(explained).collect()
}

fn unexplained() -> Why {
    let text = "the programs differ: the second one would not give this line".to_string();
    Why { kind: Kind::Unexplained, text }
}

impl<'t> Question<'t> {
    fn by(frame: &Frame, records: Records<'t>) -> Option<Question<'t>> {
        let Frame::Command { reader, line } = frame else {
            return None;
        };
        let reader = Reader::checked(*reader).ok()?;
        let mut rows = checked_rows(Table::Records(records)).ok()?;
        rows.retain(|row| row.readers.has(reader));
        Some(Question { rows, request: read_command(line).ok()?.request })
    }

    fn why(&self, line: &[u8]) -> Option<Why> {
        let why = |kind, text: &str| Some(Why { kind, text: text.to_string() });
        match &self.request {
            Request::Namespace => why(Kind::Namespaces, "the namespace list, class by class"),
            Request::Root => {
                why(Kind::Root, "the root: the pattern is empty and the command is not extended")
            }
            Request::List(request) => {
                why_listed(&self.rows, request, &listed(LineWord::List, line)?)
            }
            Request::Lsub(request) => {
                why_lsub(&self.rows, request, &listed(LineWord::Lsub, line)?.name)
            }
            Request::Edit(_) => None,
        }
    }
}

/// The parts of a line that has this word.
fn listed(word: LineWord, line: &[u8]) -> Option<ListLine> {
    ListLine::of(line).filter(|line| line.word == word)
}

fn why_listed(rows: &[Row], request: &ListRequest, line: &ListLine) -> Option<Why> {
    let selection = request.selection;
    let patterns = &request.canonical_patterns;
    let is_matched = |name: &[u8]| patterns.iter().any(|pattern| matches(pattern, name));
    let meets = |row: &&Row| meets_criteria(row.flags, selection);
    let pattern = patterns.iter().find(|pattern| matches(pattern, &line.name))?;
    let (flags, below) = (flags_of(rows, &line.name), rows_below(rows, &line.name));
    let narrows = selection.recursive_match || selection.subscribed || selection.special_use;
    let is_asked_level =
        |pattern: &Vec<u8>| ends_in_percent(pattern) && matches(pattern, &line.name);
    let met_below = below.iter().find(meets);
    let unmatched = below.iter().filter(meets).find(|row| !is_matched(row.name));
    let (kind, text) = if meets_criteria(flags, selection) {
        (Kind::Criteria, format!("by its criteria: {}", criteria_text(flags, selection)))
    } else if let Some(row) = unmatched.filter(|_| selection.recursive_match) {
        let below = shown(row.name);
        let text = format!(
            "by RECURSIVEMATCH: {below} below it meets the criteria and matches no pattern"
        );
        (Kind::RecursiveMatch, text)
    } else {
        let is_level = !narrows && !flags.has(Flags::EXISTS) && patterns.iter().any(is_asked_level);
        let below = shown(met_below.filter(|_| is_level)?.name);
        let text = format!(
            "as a level: it does not exist, a pattern that it matches ends in %, and {below} \
             below it meets the criteria"
        );
        (Kind::Level, text)
    };
    let childinfo = met_below.filter(|_| !line.childinfo.is_empty());
    let childinfo = childinfo
        .map(|row| format!("; CHILDINFO: {} below it meets the criteria", shown(row.name)));
    let text = format!("{text}; it matches {}{}", shown(pattern), childinfo.unwrap_or_default());
    Some(Why { kind, text })
}

/// What the criteria ask and the flags have.
fn criteria_text(flags: Flags, selection: Selection) -> String {
    let mut met = Vec::new();
    if flags.has(Flags::EXISTS) {
        met.push("it exists".to_string());
    }
    if selection.subscribed {
        met.push("it is subscribed".to_string());
    }
    match (flags.has(Flags::REMOTE), selection.remote) {
        (true, _) => met.push("it is remote, and REMOTE is selected".to_string()),
        (false, true) => met.push("it is local, and remote ones are listed too".to_string()),
        (false, false) => met.push("it is local".to_string()),
    }
    if selection.special_use {
        let uses = formats::rows::Flags::from_bits(flags.bits() & Flags::USES.bits());
        met.push(format!("it has a special use ({})", words_of_flags(uses)));
    }
    met.join(", ")
}

fn why_lsub(rows: &[Row], request: &LsubRequest, name: &[u8]) -> Option<Why> {
    let pattern = request.canonical_pattern.as_ref().filter(|pattern| matches(pattern, name))?;
    let (kind, text) = if flags_of(rows, name).has(Flags::SUBSCRIBED) {
        (Kind::Subscribed, "LSUB: it is subscribed".to_string())
    } else {
        let is_reason =
            |row: &&Row| row.flags.has(Flags::SUBSCRIBED) && !matches(pattern, row.name);
        let row = rows_below(rows, name).iter().find(is_reason);
        let below = shown(row.filter(|_| ends_in_percent(pattern))?.name);
        let text = format!(
            "LSUB \\Noselect: it is not subscribed; {below} below it is, and does not match"
        );
        (Kind::AboveSubscribed, text)
    };
    Some(Why { kind, text: format!("{text}; it matches {}", shown(pattern)) })
}

fn flags_of(rows: &[Row], name: &[u8]) -> Flags {
    let at = rows.binary_search_by(|row| row.name.cmp(name));
    at.map_or(Flags::IMPLIED, |at| rows[at].flags)
}

fn shown(name: &[u8]) -> String {
    name_text(name) + &beside(name)
}
