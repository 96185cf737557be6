//! LIST lines: the sixteen attributes, the criteria of CHILDINFO, the line writer and the line
//! reader. LSUB lines are written in the same way, with their own word, and not read.

use crate::name;
use crate::quoted::{push_quoted, read_quoted};
use crate::refusal::Refusal;

/// The attributes of a line, a set with named members. Member k is bit k, in the order in
/// which document 01 lists the sixteen.
#[derive(Clone, Copy, Debug, PartialEq, Eq)]
pub struct Attributes(u16);

impl Attributes {
    pub const NONE: Attributes = Attributes(0);
    pub const MARKED: Attributes = Attributes(1 << 0);
    pub const UNMARKED: Attributes = Attributes(1 << 1);
    pub const NOSELECT: Attributes = Attributes(1 << 2);
    pub const NO_INFERIORS: Attributes = Attributes(1 << 3);
    pub const REMOTE: Attributes = Attributes(1 << 4);
    pub const SUBSCRIBED: Attributes = Attributes(1 << 5);
    pub const NON_EXISTENT: Attributes = Attributes(1 << 6);
    pub const ALL: Attributes = Attributes(1 << 7);
    pub const ARCHIVE: Attributes = Attributes(1 << 8);
    pub const DRAFTS: Attributes = Attributes(1 << 9);
    pub const FLAGGED: Attributes = Attributes(1 << 10);
    pub const JUNK: Attributes = Attributes(1 << 11);
    pub const SENT: Attributes = Attributes(1 << 12);
    pub const TRASH: Attributes = Attributes(1 << 13);
    pub const HAS_CHILDREN: Attributes = Attributes(1 << 14);
    pub const HAS_NO_CHILDREN: Attributes = Attributes(1 << 15);
    /// The special uses, `\All` to `\Trash`.
    pub const USES: Attributes = Attributes(0x3F80);

    pub const fn from_bits(bits: u16) -> Attributes {
        Attributes(bits)
    }

    pub const fn bits(self) -> u16 {
        self.0
    }

    /// Whether some member of `wanted` is in the set.
    pub const fn has(self, wanted: Attributes) -> bool {
        self.0 & wanted.0 != 0
    }

    pub fn add(&mut self, added: Attributes) {
        self.0 |= added.0;
    }
}

/// "Attributes, these sixteen, in this order".
const ATTRIBUTES: [(Attributes, &[u8]); 16] = [
    (Attributes::MARKED, b"\\Marked"),
    (Attributes::UNMARKED, b"\\Unmarked"),
    (Attributes::NOSELECT, b"\\Noselect"),
    (Attributes::NO_INFERIORS, b"\\NoInferiors"),
    (Attributes::REMOTE, b"\\Remote"),
    (Attributes::SUBSCRIBED, b"\\Subscribed"),
    (Attributes::NON_EXISTENT, b"\\NonExistent"),
    (Attributes::ALL, b"\\All"),
    (Attributes::ARCHIVE, b"\\Archive"),
    (Attributes::DRAFTS, b"\\Drafts"),
    (Attributes::FLAGGED, b"\\Flagged"),
    (Attributes::JUNK, b"\\Junk"),
    (Attributes::SENT, b"\\Sent"),
    (Attributes::TRASH, b"\\Trash"),
    (Attributes::HAS_CHILDREN, b"\\HasChildren"),
    (Attributes::HAS_NO_CHILDREN, b"\\HasNoChildren"),
];

/// The criteria that CHILDINFO names, a set with named members; the empty set is a line without
/// CHILDINFO. "reader and line writer take one, the other, or both in that order" (W3)
#[derive(Clone, Copy, Debug, PartialEq, Eq)]
pub struct Criteria(u8);

impl Criteria {
    pub const NONE: Criteria = Criteria(0);
    pub const SUBSCRIBED: Criteria = Criteria(1 << 0);
    pub const SPECIAL_USE: Criteria = Criteria(1 << 1);
    pub const BOTH: Criteria = Criteria(Criteria::SUBSCRIBED.0 | Criteria::SPECIAL_USE.0);

    /// The set of some bits, or none where a bit stands for no criterion.
    pub const fn from_bits(bits: u8) -> Option<Criteria> {
        if bits <= Criteria::BOTH.0 {
            Some(Criteria(bits))
        } else {
            None
        }
    }

    pub const fn bits(self) -> u8 {
        self.0
    }

    /// Whether some member of `wanted` is in the set.
    pub const fn has(self, wanted: Criteria) -> bool {
        self.0 & wanted.0 != 0
    }

    pub const fn is_empty(self) -> bool {
        self.0 == 0
    }

    pub fn add(&mut self, added: Criteria) {
        self.0 |= added.0;
    }
}

/// "CHILDINFO names the criteria selected, "SUBSCRIBED" before "SPECIAL-USE"" (W3)
const CRITERIA: [(Criteria, &[u8]); 2] =
    [(Criteria::SUBSCRIBED, b"\"SUBSCRIBED\""), (Criteria::SPECIAL_USE, b"\"SPECIAL-USE\"")];

/// The line that names the root.
pub const ROOT_LINE: &[u8] = b"* LIST (\\Noselect) \"/\" \"\"\r\n";
const BEFORE_NAME: &[u8] = b") \"/\" ";
const CHILDINFO_START: &[u8] = b" (\"CHILDINFO\" (";
const CHILDINFO_END: &[u8] = b"))";
/// What a line ends with, of a command and of an answer.
pub const CRLF: &[u8] = b"\r\n";

/// The word of a line: that of the command which it answers.
#[derive(Clone, Copy, Debug, PartialEq, Eq)]
pub enum LineWord {
    List,
    Lsub,
}

impl LineWord {
    /// What a line starts with, up to its attributes.
    const fn start(self) -> &'static [u8] {
        match self {
            LineWord::List => b"* LIST (",
            LineWord::Lsub => b"* LSUB (",
        }
    }
}

/// The parts of a LIST line.
#[derive(Clone, Debug, PartialEq, Eq)]
pub struct Line {
    /// Bit k is the k-th of the sixteen attributes.
    pub attrs: u16,
    /// Unquoted. Empty on the root line alone.
    pub name: Vec<u8>,
    /// Empty on a line without CHILDINFO.
    pub childinfo: Criteria,
}

impl Line {
    fn root() -> Line {
        Line { attrs: Attributes::NOSELECT.bits(), name: Vec::new(), childinfo: Criteria::NONE }
    }
}

/// The line writer: "other parts are 12, a short buffer 9, in that order". A refusal changes no
/// byte of `out`, and bytes behind the written line stay.
pub fn write_line(
    attrs: u16,
    name: &[u8],
    childinfo: Criteria,
    out: &mut [u8],
) -> Result<usize, Refusal> {
    let root = Line::root();
    let is_root = (attrs, name, childinfo) == (root.attrs, &root.name, root.childinfo);
    if !is_root && !name::is_lawful(name) {
        return Err(Refusal::Line);
    }
    let mut line = Vec::new();
    push_line(&mut line, LineWord::List, Attributes::from_bits(attrs), name, childinfo);
    put_answer(&line, out)
}

/// The line writer from the number of a set of criteria. A number that is no such set is a part of
/// no line, and so is refused first.
pub fn write_parts(
    attrs: u16,
    name: &[u8],
    criteria: u8,
    out: &mut [u8],
) -> Result<usize, Refusal> {
    let childinfo = Criteria::from_bits(criteria).ok_or(Refusal::Line)?;
    write_line(attrs, name, childinfo, out)
}

/// The reader: one LIST line with its CR LF, byte for byte as the writer gives it; "All else
/// is 12."
pub fn read_line(line: &[u8]) -> Result<Line, Refusal> {
    if line == ROOT_LINE {
        return Ok(Line::root());
    }
    read_parts(line).filter(|parts| name::is_lawful(&parts.name)).ok_or(Refusal::Line)
}

/// `* WORD (attributes) "/" "name"`, then perhaps ` ("CHILDINFO" (criteria))`, CR LF.
pub fn push_line(
    line: &mut Vec<u8>,
    word: LineWord,
    attributes: Attributes,
    name: &[u8],
    childinfo: Criteria,
) {
    line.extend_from_slice(word.start());
    push_words(line, &ATTRIBUTES, |attribute| attributes.has(attribute));
    line.extend_from_slice(BEFORE_NAME);
    push_quoted(line, name);
    if !childinfo.is_empty() {
        line.extend_from_slice(CHILDINFO_START);
        push_words(line, &CRITERIA, |criterion| childinfo.has(criterion));
        line.extend_from_slice(CHILDINFO_END);
    }
    line.extend_from_slice(CRLF);
}

/// The words of a set's members, in order and parted by single spaces.
pub(crate) fn push_words<M: Copy>(
    line: &mut Vec<u8>,
    words: &[(M, &[u8])],
    is_member: impl Fn(M) -> bool,
) {
    let mut separator: &[u8] = b"";
    for &(_, word) in words.iter().filter(|(member, _)| is_member(*member)) {
        line.extend_from_slice(separator);
        line.extend_from_slice(word);
        separator = b" ";
    }
}

/// Puts an answer at the start of a lent buffer, whole, or refuses and changes nothing.
pub fn put_answer(answer: &[u8], out: &mut [u8]) -> Result<usize, Refusal> {
    match out.get_mut(..answer.len()) {
        Some(room) => {
            room.copy_from_slice(answer);
            Ok(answer.len())
        }
        None => Err(Refusal::AnswerRoom),
    }
}

fn read_parts(line: &[u8]) -> Option<Line> {
    let mut attributes = Attributes::NONE;
    let rest = line.strip_prefix(LineWord::List.start())?;
    let rest = read_words(rest, &ATTRIBUTES, |attribute| attributes.add(attribute));
    let (name, rest) = read_quoted(rest.strip_prefix(BEFORE_NAME)?)?;
    let (childinfo, rest) = read_childinfo(rest)?;
    (rest == CRLF).then_some(Line { attrs: attributes.bits(), name, childinfo })
}

/// ` ("CHILDINFO" (criteria))` with one criterion at least, or nothing, and what stands behind.
fn read_childinfo(text: &[u8]) -> Option<(Criteria, &[u8])> {
    let mut criteria = Criteria::NONE;
    let Some(rest) = text.strip_prefix(CHILDINFO_START) else {
        return Some((criteria, text));
    };
    let rest = read_words(rest, &CRITERIA, |criterion| criteria.add(criterion));
    let rest = rest.strip_prefix(CHILDINFO_END)?;
    (!criteria.is_empty()).then_some((criteria, rest))
}

/// Any of some words in their order, parted by single spaces; gives what stands behind them.
fn read_words<'t, M: Copy>(
    mut text: &'t [u8],
    words: &[(M, &[u8])],
    mut add: impl FnMut(M),
) -> &'t [u8] {
    let mut separator: &[u8] = b"";
    for &(member, word) in words {
        let behind = text.strip_prefix(separator).and_then(|text| text.strip_prefix(word));
        if let Some(behind) = behind {
            add(member);
            text = behind;
            separator = b" ";
        }
    }
    text
}
