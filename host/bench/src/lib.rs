//! The benchmark: the proved library and the second program's over the same inputs, in one run; and the search for the
//! commands that take longest.

pub mod changes;
mod clock;
mod floor;
pub mod hostile;
pub mod inputs;
pub mod measure;
pub mod page;
pub mod plot;
pub mod runs;
pub mod search;
mod steps;
pub mod trial;
