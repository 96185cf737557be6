//! What a LIST lists: candidates, criteria, attributes and CHILDINFO.

use std::collections::BTreeMap;

use crate::command::{ListRequest, Return, Selection};
use crate::line::{push_line, Attributes, Criteria, LineWord};
use crate::name;
use crate::pattern::{ends_in_percent, matches};
use crate::rows::{rows_below, Flags, Row};

/// The candidates that match some pattern, with their flags. "lines ascend by name".
pub type Matching<'t> = BTreeMap<&'t [u8], Flags>;

/// A candidate that matches some pattern.
struct Candidate<'r, 't> {
    name: &'t [u8],
    flags: Flags,
    /// The rows of its descendants. An implied name exists in no table and is not subscribed,
    /// so it never meets the criteria and never counts as a child: rows are enough.
    below: &'r [Row<'t>],
}

/// The LIST lines of a command over the rows of a table that passes.
pub fn list_lines(rows: &[Row], request: &ListRequest) -> Vec<u8> {
    let selection = request.selection;
    let matching = matching_candidates(rows, &request.canonical_patterns);
    let mut lines = Vec::new();
    for (&name, &flags) in &matching {
        let candidate = Candidate { name, flags, below: rows_below(rows, name) };
        let is_level = is_level_above(&candidate, request);
        if is_level || is_listed(&candidate, selection, &matching) {
            let mut attributes = attributes_of(&candidate, selection, request.returned);
            if is_level {
                attributes.add(Attributes::HAS_CHILDREN);
            }
            let childinfo = childinfo_of(&candidate, selection);
            push_line(&mut lines, LineWord::List, attributes, name, childinfo);
        }
    }
    lines
}

/// "Candidates are the table's names and all their proper ancestors." The rows below one
/// ancestor stand side by side, so an ancestor of the row before has been seen already.
pub fn matching_candidates<'t>(rows: &[Row<'t>], patterns: &[Vec<u8>]) -> Matching<'t> {
    let is_matched = |name: &[u8]| patterns.iter().any(|pattern| matches(pattern, name));
    let mut matching = Matching::new();
    let mut before: &[u8] = b"";
    for row in rows {
        let shared = row.name.iter().zip(before).take_while(|(one, other)| one == other).count();
        let unseen = name::ancestors(row.name).skip_while(|ancestor| ancestor.len() < shared);
        for ancestor in unseen.filter(|ancestor| is_matched(ancestor)) {
            matching.entry(ancestor).or_insert(Flags::IMPLIED);
        }
        if is_matched(row.name) {
            matching.insert(row.name, row.flags);
        }
        before = row.name;
    }
    matching
}

/// "A candidate meets the criteria if: it exists or SUBSCRIBED is selected; it is local or
/// REMOTE is selected; it is subscribed if SUBSCRIBED is selected; and it has a special use if
/// SPECIAL-USE is selected."
pub fn meets_criteria(flags: Flags, selection: Selection) -> bool {
    (flags.has(Flags::EXISTS) || selection.subscribed)
        && (!flags.has(Flags::REMOTE) || selection.remote)
        && (flags.has(Flags::SUBSCRIBED) || !selection.subscribed)
        && (flags.has(Flags::USES) || !selection.special_use)
}

/// "A candidate that matches some pattern is listed if it meets the criteria, or, under
/// RECURSIVEMATCH, if some descendant meets them and matches no pattern (RFC 5258, 3.3)."
fn is_listed(candidate: &Candidate, selection: Selection, matching: &Matching) -> bool {
    let meets_unmatched =
        |row: &Row| meets_criteria(row.flags, selection) && !matching.contains_key(row.name);
    meets_criteria(candidate.flags, selection)
        || selection.recursive_match && candidate.below.iter().any(meets_unmatched)
}

/// Document 02, W1: "Where neither RECURSIVEMATCH, SUBSCRIBED nor SPECIAL-USE is selected, a
/// candidate that does not exist, matches a canonical pattern ending in "%", and has a descendant
/// that meets the criteria is listed with `\NonExistent` and `\HasChildren`, whether CHILDREN was
/// asked or not".
fn is_level_above(candidate: &Candidate, request: &ListRequest) -> bool {
    let selection = request.selection;
    let mut percent_patterns =
        request.canonical_patterns.iter().filter(|pattern| ends_in_percent(pattern));
    let narrows = selection.recursive_match || selection.subscribed || selection.special_use;
    !narrows
        && !candidate.flags.has(Flags::EXISTS)
        && percent_patterns.any(|pattern| matches(pattern, candidate.name))
        && meets_below(candidate, selection)
}

/// "CHILDINFO is on a listed line exactly if RECURSIVEMATCH was given and some proper
/// descendant meets the criteria, whether that one matches or not." It names the criteria
/// selected (W3).
fn childinfo_of(candidate: &Candidate, selection: Selection) -> Criteria {
    if selection.recursive_match && meets_below(candidate, selection) {
        selection.criteria()
    } else {
        Criteria::NONE
    }
}

/// Whether some descendant meets the criteria, be it matched or not.
fn meets_below(candidate: &Candidate, selection: Selection) -> bool {
    candidate.below.iter().any(|row| meets_criteria(row.flags, selection))
}

/// "Bits 2 to 6 always show".
const ALWAYS_SHOWN: [(Flags, Attributes); 5] = [
    (Flags::REMOTE, Attributes::REMOTE),
    (Flags::NO_SELECT, Attributes::NOSELECT),
    (Flags::NO_INFERIORS, Attributes::NO_INFERIORS),
    (Flags::MARKED, Attributes::MARKED),
    (Flags::UNMARKED, Attributes::UNMARKED),
];

const USES: [(Flags, Attributes); 7] = [
    (Flags::ALL, Attributes::ALL),
    (Flags::ARCHIVE, Attributes::ARCHIVE),
    (Flags::DRAFTS, Attributes::DRAFTS),
    (Flags::FLAGGED, Attributes::FLAGGED),
    (Flags::JUNK, Attributes::JUNK),
    (Flags::SENT, Attributes::SENT),
    (Flags::TRASH, Attributes::TRASH),
];

/// "`\Subscribed` is shown only if SUBSCRIBED is selected or returned, uses only if
/// SPECIAL-USE is, the last two only with CHILDREN."
fn attributes_of(candidate: &Candidate, selection: Selection, returned: Return) -> Attributes {
    let flags = candidate.flags;
    let mut attributes = Attributes::NONE;
    show(&mut attributes, flags, &ALWAYS_SHOWN);
    if !flags.has(Flags::EXISTS) {
        attributes.add(Attributes::NON_EXISTENT);
    }
    if selection.subscribed || returned.subscribed {
        show(&mut attributes, flags, &[(Flags::SUBSCRIBED, Attributes::SUBSCRIBED)]);
    }
    if selection.special_use || returned.special_use {
        show(&mut attributes, flags, &USES);
    }
    if returned.children {
        attributes.add(children_attribute(candidate, selection));
    }
    attributes
}

fn show(attributes: &mut Attributes, flags: Flags, pairs: &[(Flags, Attributes)]) {
    for &(flag, attribute) in pairs {
        if flags.has(flag) {
            attributes.add(attribute);
        }
    }
}

/// "`\HasChildren`: some existing row lies below that is local, or REMOTE is selected. Else
/// `\HasNoChildren`, except beside `\NoInferiors`."
fn children_attribute(candidate: &Candidate, selection: Selection) -> Attributes {
    let is_child = |row: &Row| {
        row.flags.has(Flags::EXISTS) && (!row.flags.has(Flags::REMOTE) || selection.remote)
    };
    if candidate.below.iter().any(is_child) {
        Attributes::HAS_CHILDREN
    } else if candidate.flags.has(Flags::NO_INFERIORS) {
        Attributes::NONE
    } else {
        Attributes::HAS_NO_CHILDREN
    }
}
