//! Running sessions: a session file is sent to a program of frames, and what it answers is printed, compared with what the
//! second program answers, and reported. The crate `formats` reads session files and shows frames and answers.
//!
//! Where nothing after the last row or entry asks whether the table and the namespace list pass, one
//! command more is sent that does. It is printed and counted as this tool's own.

mod data;
mod difference;
mod form;
mod judged;
mod kept;
mod large;
mod new_file;
mod page;
mod printer;
mod ran;
mod report;
mod run;
pub mod second_program;
mod summary;
mod turn;
mod verdict;

pub use data::{name_members, row_members};
pub use difference::Apart;
pub use form::Form;
pub use large::{make_ready, BUILD};
pub use new_file::{is_same_file, NewFile};
pub use page::{Page, PageWords};
pub use ran::{sum_of_file, Library, Programs};
pub use report::html;
pub use report::{page_of, Facts, Matter, Report, Versions};
pub use run::{run_reported, run_session, RunError};
pub use summary::RunSummary;
