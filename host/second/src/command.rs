//! The command line: its shape, tag, word, options, patterns and names, and refusals 3 to 8.
//!
//! With its literals (document 02, W2) a command is one line or more, and is still called its line.

use crate::cursor::{Cursor, WrittenOption};
use crate::fault::LineFault;
use crate::line::Criteria;
use crate::refusal::Refusal;
use crate::shape::shape_of;

/// Document 01: "At most 8 patterns, empty ones counted."
pub const MAX_PATTERNS: usize = 8;
/// Document 01: "at most 255 bytes after unquoting".
pub const MAX_CANONICAL: usize = 255;

/// The one option that is looked for by itself.
const RECURSIVEMATCH: &[u8] = b"RECURSIVEMATCH";

/// A command that is not refused, with the tag it is answered under.
pub struct Command<'l> {
    pub tag: &'l [u8],
    pub request: Request,
}

/// What a command asks for.
pub enum Request {
    Namespace,
    /// The root line: an empty pattern in a command that is not extended.
    Root,
    List(ListRequest),
    Lsub(LsubRequest),
    Edit(EditRequest),
}

/// A LIST for names. An empty pattern has no canonical form and is not kept.
pub struct ListRequest {
    pub selection: Selection,
    pub returned: Return,
    pub canonical_patterns: Vec<Vec<u8>>,
}

/// An LSUB (document 02, W5): "reference and a single pattern". An empty pattern has no canonical
/// form here either, and lists nothing.
pub struct LsubRequest {
    pub canonical_pattern: Option<Vec<u8>>,
}

/// "SUBSCRIBE and UNSUBSCRIBE with one mailbox name (an astring)" (document 02, W6)
pub struct EditRequest {
    pub edit: Edit,
    /// The place of the word in the line.
    pub word_at: usize,
    /// As it is written, not spelled in any other way.
    pub name: Vec<u8>,
    /// The place of the name in the line.
    pub name_at: usize,
}

#[derive(Clone, Copy, Debug, PartialEq, Eq)]
pub enum Edit {
    Subscribe,
    Unsubscribe,
}

/// The selection options given. "A repeat counts once."
#[derive(Clone, Copy, Debug, Default)]
pub struct Selection {
    pub subscribed: bool,
    pub remote: bool,
    pub recursive_match: bool,
    pub special_use: bool,
}

/// The return options given.
#[derive(Clone, Copy, Debug, Default)]
pub struct Return {
    pub subscribed: bool,
    pub children: bool,
    pub special_use: bool,
}

/// A LIST as it is written, on the grammar and not judged any further.
struct WrittenList<'l> {
    selection: Vec<WrittenOption<'l>>,
    reference: Vec<u8>,
    patterns: Vec<Vec<u8>>,
    /// The place of the patterns in the line.
    patterns_at: usize,
    returned: Vec<WrittenOption<'l>>,
    /// "A command is extended if it has a selection list, parenthesised patterns or RETURN."
    extended: bool,
}

/// Reads a command line. The order of its refusals is 3, tag 4, 5, rest 4, 6, 7, 8.
pub fn read_command(line: &[u8]) -> Result<Command<'_>, LineFault> {
    let shape = shape_of(line)?;
    let mut cursor = Cursor::new(shape.start, &shape.literals);
    let tag = cursor.tag()?;
    cursor.space()?;
    let at = cursor.place();
    let request = match cursor.word().to_ascii_uppercase().as_slice() {
        b"LIST" => judge(read_list(cursor)?)?,
        b"LSUB" => Request::Lsub(read_lsub(cursor)?),
        b"NAMESPACE" => cursor.end().map(|()| Request::Namespace)?,
        b"SUBSCRIBE" => Request::Edit(read_edit(Edit::Subscribe, at, cursor)?),
        b"UNSUBSCRIBE" => Request::Edit(read_edit(Edit::Unsubscribe, at, cursor)?),
        _ => {
            let rule = "the word is LIST, LSUB, NAMESPACE, SUBSCRIBE or UNSUBSCRIBE";
            return Err(LineFault { refusal: Refusal::Word, at, rule });
        }
    };
    Ok(Command { tag, request })
}

/// The rest of a LIST: [SP options] SP reference SP patterns [SP "RETURN" SP options]
fn read_list<'l>(mut cursor: Cursor<'l, '_>) -> Result<WrittenList<'l>, LineFault> {
    let has_selection = cursor.sees_space_and_list();
    let mut selection = Vec::new();
    if has_selection {
        cursor.space()?;
        selection = cursor.options()?;
    }
    cursor.space()?;
    let reference = cursor.reference()?;
    cursor.space()?;
    let patterns_at = cursor.place();
    let has_pattern_list = cursor.sees(b'(');
    let patterns = cursor.patterns()?;
    let has_return = cursor.sees(b' ');
    let mut returned = Vec::new();
    if has_return {
        returned = read_return(&mut cursor)?;
    }
    cursor.end()?;
    let extended = has_selection || has_pattern_list || has_return;
    Ok(WrittenList { selection, reference, patterns, patterns_at, returned, extended })
}

/// SP "RETURN" SP options, RETURN in any case of letters
fn read_return<'l>(cursor: &mut Cursor<'l, '_>) -> Result<Vec<WrittenOption<'l>>, LineFault> {
    cursor.space()?;
    let no_return = cursor.off_grammar("RETURN is expected");
    if !cursor.word().eq_ignore_ascii_case(b"RETURN") {
        return Err(no_return);
    }
    cursor.space()?;
    cursor.options()
}

/// The rest of an LSUB: SP reference SP pattern; 4 over the whole of it comes before 8.
fn read_lsub(mut cursor: Cursor) -> Result<LsubRequest, LineFault> {
    cursor.space()?;
    let reference = cursor.reference()?;
    cursor.space()?;
    let pattern_at = cursor.place();
    let pattern = cursor.pattern()?;
    cursor.end()?;
    let canonical = canonical_patterns(&reference, &[pattern], pattern_at)?;
    Ok(LsubRequest { canonical_pattern: canonical.into_iter().next() })
}

/// The rest of a SUBSCRIBE or UNSUBSCRIBE: SP mailbox. What it is refused for otherwise hangs on the
/// reader and on the table.
fn read_edit(edit: Edit, word_at: usize, mut cursor: Cursor) -> Result<EditRequest, LineFault> {
    cursor.space()?;
    let name_at = cursor.place();
    let name = cursor.mailbox()?;
    cursor.end()?;
    Ok(EditRequest { edit, word_at, name, name_at })
}

/// Refusals 6, 7 and 8, in this order, over the whole command.
fn judge(list: WrittenList) -> Result<Request, LineFault> {
    let selection = Selection::of(&list.selection)?;
    let returned = Return::of(&list.returned)?;
    if !selection.is_lawful() {
        return Err(recursive_match_alone(&list.selection));
    }
    let canonical_patterns = canonical_patterns(&list.reference, &list.patterns, list.patterns_at)?;
    if !list.extended && canonical_patterns.is_empty() {
        return Ok(Request::Root);
    }
    Ok(Request::List(ListRequest { selection, returned, canonical_patterns }))
}

fn recursive_match_alone(selection: &[WrittenOption]) -> LineFault {
    let mut options = selection.iter();
    let option = options.find(|option| option.name.eq_ignore_ascii_case(RECURSIVEMATCH));
    LineFault {
        refusal: Refusal::RecursiveMatchAlone,
        at: option.map_or(0, |option| option.at),
        rule: "SUBSCRIBED or SPECIAL-USE stands beside RECURSIVEMATCH",
    }
}

impl Selection {
    /// The criteria that CHILDINFO names. RECURSIVEMATCH asks for one of them beside it: "7 is
    /// given exactly if neither SUBSCRIBED nor SPECIAL-USE stands beside it" (W3).
    pub fn criteria(self) -> Criteria {
        let mut criteria = Criteria::NONE;
        if self.subscribed {
            criteria.add(Criteria::SUBSCRIBED);
        }
        if self.special_use {
            criteria.add(Criteria::SPECIAL_USE);
        }
        criteria
    }

    /// Whether 7 is not given.
    pub fn is_lawful(self) -> bool {
        !self.recursive_match || !self.criteria().is_empty()
    }

    fn of(options: &[WrittenOption]) -> Result<Selection, LineFault> {
        let mut selection = Selection::default();
        for option in options {
            match known_name(option)?.as_slice() {
                b"SUBSCRIBED" => selection.subscribed = true,
                b"REMOTE" => selection.remote = true,
                RECURSIVEMATCH => selection.recursive_match = true,
                b"SPECIAL-USE" => selection.special_use = true,
                _ => {
                    let rule = "SUBSCRIBED, REMOTE, RECURSIVEMATCH and SPECIAL-USE may be selected";
                    return Err(unknown(option, rule));
                }
            }
        }
        Ok(selection)
    }
}

impl Return {
    fn of(options: &[WrittenOption]) -> Result<Return, LineFault> {
        let mut returned = Return::default();
        for option in options {
            match known_name(option)?.as_slice() {
                b"SUBSCRIBED" => returned.subscribed = true,
                b"CHILDREN" => returned.children = true,
                b"SPECIAL-USE" => returned.special_use = true,
                _ => {
                    let rule = "SUBSCRIBED, CHILDREN and SPECIAL-USE may be returned";
                    return Err(unknown(option, rule));
                }
            }
        }
        Ok(returned)
    }
}

/// "Known, in any case of letters and without a value": the name in upper case.
fn known_name(option: &WrittenOption) -> Result<Vec<u8>, LineFault> {
    if option.has_value {
        Err(unknown(option, "no known option has a value"))
    } else {
        Ok(option.name.to_ascii_uppercase())
    }
}

fn unknown(option: &WrittenOption, rule: &'static str) -> LineFault {
    LineFault { refusal: Refusal::UnknownOption, at: option.at, rule }
}

/// "The canonical pattern is the reference followed by the pattern". An empty pattern counts
/// for the eight and has no canonical form, so its reference may be of any length.
pub(crate) fn canonical_patterns(
    reference: &[u8],
    patterns: &[impl AsRef<[u8]>],
    at: usize,
) -> Result<Vec<Vec<u8>>, LineFault> {
    let written = patterns.iter().map(AsRef::as_ref).filter(|pattern| !pattern.is_empty());
    let canonical: Vec<_> = written.map(|pattern| [reference, pattern].concat()).collect();
    let rule = if patterns.len() > MAX_PATTERNS {
        "a command has at most 8 patterns"
    } else if canonical.iter().any(|pattern| pattern.len() > MAX_CANONICAL) {
        "a canonical pattern has at most 255 bytes"
    } else {
        return Ok(canonical);
    };
    Err(LineFault { refusal: Refusal::Patterns, at, rule })
}
