//! The tests of the replay, in process and as a program.

mod calls;
mod changed;
mod common;
mod documents;
mod figures;
mod kits;
mod pages;
mod recorded;
mod scripts;
mod served;
mod tables;
