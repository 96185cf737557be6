//! The tests of the comparison.

mod alike;
mod common;
mod compactions;
mod comparison;
mod edit_series;
mod edits;
mod explanations;
mod join_parts;
mod laws;
mod lsub;
mod reached;
mod readers;
mod records;
mod replays;
mod streams;
mod summaries;
mod walks;
