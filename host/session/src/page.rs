//! The page of a report: what a call says of it, and its file, which is made before anything is run and is never one that
//! is read.

use std::env;
use std::path::PathBuf;

use formats::text::path_text;

use crate::new_file::{is_same_file, NewFile};
use crate::report::Matter;

/// What the streams of a tool are, by the paths that the system has for them.
const STREAMS: [&str; 3] = ["/dev/stdin", "/dev/stdout", "/dev/stderr"];

/// The page of a report, and what the call says of it.
pub struct Page {
    pub path: PathBuf,
    /// Whether a file that is there may be written over.
    pub is_forced: bool,
    pub date: Option<String>,
    pub matter: Matter,
}

/// What the words of a call say of a page, so far.
#[derive(Default)]
pub struct PageWords {
    pub path: Option<PathBuf>,
    pub is_forced: bool,
    date: Option<String>,
    matter: Matter,
}

impl PageWords {
    /// Where the text of an option goes; none for an option that is about no page.
    pub fn text_option(&mut self, option: &str) -> Option<&mut Option<String>> {
        Some(match option {
            "--date" => &mut self.date,
            "--case" => &mut self.matter.case,
            "--examiner" => &mut self.matter.examiner,
            "--exhibit" => &mut self.matter.exhibit,
            _ => return None,
        })
    }

    /// Whether something is said of a page that is not named.
    pub fn are_without_page(&self) -> bool {
        let Matter { case, examiner, exhibit } = &self.matter;
        let texts = [&self.date, case, examiner, exhibit];
        self.path.is_none() && (self.is_forced || texts.into_iter().any(Option::is_some))
    }

    /// The page, where one is named.
    pub fn page(self) -> Option<Page> {
        let PageWords { path, is_forced, date, matter } = self;
        path.map(|path| Page { path, is_forced, date, matter })
    }
}

impl Page {
    /// Makes its file, or says why there is none. It is none of these, which are in use, nor this tool, nor what standard
    /// input, output and error are.
    pub fn create(&self, in_use: impl IntoIterator<Item = PathBuf>) -> Result<NewFile, String> {
        let own = env::current_exe().into_iter().chain(STREAMS.map(PathBuf::from));
        if in_use.into_iter().chain(own).any(|file| is_same_file(&file, &self.path)) {
            let path = path_text(&self.path);
            return Err(format!("{path} is read or written here, so no report is written there"));
        }
        NewFile::create(&self.path, self.is_forced)
    }
}
