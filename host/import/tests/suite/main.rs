//! The tests of `./import`.

mod answers;
mod calls;
mod common;
mod gathering;
mod layouts;
mod lists;
mod maildirs;
mod mboxes;
mod names_files;
mod outputs;
mod records;
mod uses;
