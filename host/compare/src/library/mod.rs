//! The comparison: the proved library and the second program's, call for call, in one process.
//!
//! Every result and every byte of lent memory is compared; of the feeder's memory, the bytes of the
//! command. The inputs come from fixed seeds.

mod answers;
pub mod both;
mod compactions;
mod compared;
mod edits;
mod feeding;
mod join_limits;
mod joining;
mod laws;
mod lines;
mod longest_names;
mod matching;
mod readers;
mod reading;
mod records;
mod replays;
mod summaries;
mod tables;
mod tally;
mod walks;

pub use tally::Tally;

/// A name, and what compares.
pub type Group = (&'static str, fn(&mut Tally));

pub const GROUPS: [Group; 48] = [
    ("every set of attributes, written and read back", lines::every_set),
    ("every number of a set of criteria", lines::every_criteria_byte),
    ("names at the limits, buffers on both sides of the line's length", lines::names_and_rooms),
    ("lines with one byte changed, left out or added", reading::one_byte_damaged),
    ("lines cut short, doubled and put together", reading::pieces),
    ("random bytes as lines", reading::random_bytes),
    ("patterns and names", matching::patterns),
    ("hostile patterns and long names", matching::hostile),
    ("tables, good and damaged", tables::tables),
    ("tables at the limits", tables::limits),
    ("namespace lists", tables::namespace_lists),
    ("commands, buffers on both sides of the answer's length", answers::commands),
    ("LSUB, buffers on both sides of the answer's length", answers::lsub),
    ("walks, buffers on both sides of what they need", walks::walks),
    ("records in every layout, with commands and walks", records::layouts),
    ("packed tables and their records", records::of_packed),
    ("LSUB over records and over packed tables", records::lsub),
    ("records at every place of small areas", records::small_areas),
    ("records at the limits", records::limits),
    ("series of edits over lent records and areas", edits::series),
    ("series of edits of every reader", edits::series_of_every_reader),
    ("commands of every reader, over records and packed tables", readers::commands),
    ("walks of every reader, over records and packed tables", readers::walks),
    ("two tables that one reader sees alike", readers::views),
    ("compactions of areas full of holes, with commands and walks", compactions::of_holes),
    ("compactions at every place of small areas", compactions::small_areas),
    ("compactions at the limits", compactions::limits),
    ("summaries kept up to date by series of edits", summaries::series),
    ("summaries after edits in every order", summaries::every_order),
    ("summaries that are wrong, too short or too long", summaries::damaged),
    ("summaries counted afresh, of records in every layout", summaries::counted),
    ("summaries at the limits", summaries::limits),
    ("streams for the feeder, chunk by chunk", feeding::streams),
    ("memory and states that the feeder does not take", feeding::not_taken),
    ("the continuation line at any place of a buffer", feeding::continuation),
    ("replays of nights, whole and in pieces", replays::nights),
    ("logs stopped at every place", replays::stops),
    ("logs cut at every place", replays::cuts),
    ("logs with frames and answers at the limits", replays::limits),
    ("joined commands of random parts, lawful and damaged, and their answers", joining::parts),
    ("joined commands at the limits, with several faults at a time", join_limits::limits),
    ("laws: more patterns", laws::more_patterns),
    ("laws: rows that gain subscriptions by commands", laws::gains),
    ("laws: tables whose rows gain subscriptions", laws::gained_tables),
    ("laws: joined requests", laws::joins),
    ("laws: joined requests, as the library writes them", laws::written_joins),
    ("laws: own commands of walks", laws::own_commands),
    ("walks below the longest names, over records and packed tables", longest_names::walks),
];
