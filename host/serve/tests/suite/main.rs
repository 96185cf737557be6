//! The tests of the server, in process and as a program.

mod calls;
mod collector;
mod common;
mod documents;
mod ending;
mod figures;
mod handed;
mod load;
mod logged;
mod recorded;
mod reviewed;
mod streams;
mod waiting;
mod words;
