//! The tests of readable sessions and of `./run`.

mod answered;
mod building;
mod calls;
mod common;
mod data;
mod escaped;
mod explained;
mod failing;
mod files;
mod json;
mod large;
mod ordered;
mod own_checks;
mod page;
mod page_files;
mod page_words;
mod reports;
mod rests_on;
mod rooms;
mod sessions;
mod sums;
mod verdicts;
