//! What an LSUB lists (document 02, W5).

use crate::command::LsubRequest;
use crate::line::{push_line, Attributes, Criteria, LineWord};
use crate::listing::{matching_candidates, Matching};
use crate::pattern::ends_in_percent;
use crate::rows::{rows_below, Flags, Row};

/// The LSUB lines of a command over the rows of a table that passes: "Line word LSUB, no CHILDINFO,
/// and no other attribute."
pub fn lsub_lines(rows: &[Row], request: &LsubRequest) -> Vec<u8> {
    let mut lines = Vec::new();
    let Some(pattern) = &request.canonical_pattern else {
        return lines;
    };
    let matching = matching_candidates(rows, std::slice::from_ref(pattern));
    for (&name, &flags) in &matching {
        let attributes = if flags.has(Flags::SUBSCRIBED) {
            Attributes::NONE
        } else if ends_in_percent(pattern) && is_above_subscribed(rows, name, &matching) {
            Attributes::NOSELECT
        } else {
            continue;
        };
        push_line(&mut lines, LineWord::Lsub, attributes, name, Criteria::NONE);
    }
    lines
}

/// "a subscribed descendant that does not match"; an implied name is not subscribed, so rows are
/// enough. "Remote rows are included."
fn is_above_subscribed(rows: &[Row], name: &[u8], matching: &Matching) -> bool {
    let is_unmatched =
        |row: &Row| row.flags.has(Flags::SUBSCRIBED) && !matching.contains_key(row.name);
    rows_below(rows, name).iter().any(is_unmatched)
}
