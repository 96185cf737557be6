//! The tests of the difference of two tables.

mod calls;
mod common;
mod differences;
mod kinds;
mod sessions;
mod stores;
