//! The words of a call.

use std::ffi::OsString;
use std::path::PathBuf;

use formats::text::comment_text;
use replay::{LibraryBuild, Night};
use session::{Page, PageWords};

const USAGE: &str = "usage: replay [--table] [--all] [--log FILE] [--report PAGE [--force] [--date TEXT] [--case TEXT] \
                     [--examiner TEXT] [--exhibit TEXT]] [--archive-sum SUM] [--built-by-proof] [--sources-sum SUM] [--commit \
                     TEXT] [TABLE] LOG";

/// What is asked for.
pub struct Call {
    pub night: Night,
    /// Whether the rows at the end are printed.
    pub has_table: bool,
    pub page: Option<Page>,
    pub origin: LibraryBuild,
}

/// The words as they come, each option at most once.
#[derive(Default)]
struct Words {
    paths: Vec<PathBuf>,
    has_table: bool,
    finds_all: bool,
    served: Option<PathBuf>,
    page: PageWords,
    origin: LibraryBuild,
}

impl Call {
    /// The call, or what is wrong with it.
    pub fn read(words: impl IntoIterator<Item = OsString>) -> Result<Call, String> {
        let (mut read, mut words) = (Words::default(), words.into_iter());
        let mut has_options = true;
        while let Some(word) = words.next() {
            match word.to_str().filter(|_| has_options) {
                Some("--") => has_options = false,
                Some(option) if option.starts_with('-') && option != "-" => {
                    read.take(option, &mut words).map_err(|why| format!("{why}\n{USAGE}"))?;
                }
                _ => read.paths.push(word.into()),
            }
        }
        read.call().map_err(|why| format!("{why}\n{USAGE}"))
    }
}

impl Words {
    fn take(
        &mut self,
        option: &str,
        rest: &mut impl Iterator<Item = OsString>,
    ) -> Result<(), String> {
        match option {
            "--table" => self.has_table = true,
            "--all" => self.finds_all = true,
            "--force" => self.page.is_forced = true,
            "--built-by-proof" => self.origin.is_built_by_proof = true,
            "--log" => set(&mut self.served, value(option, rest)?.into(), option)?,
            "--report" => set(&mut self.page.path, value(option, rest)?.into(), option)?,
            _ => {
                let place = match option {
                    "--archive-sum" => Some(&mut self.origin.archive_sum),
                    "--sources-sum" => Some(&mut self.origin.sources_sum),
                    "--commit" => Some(&mut self.origin.commit),
                    _ => self.page.text_option(option),
                };
                let unknown = || format!("unknown option {}", comment_text(option.as_bytes()));
                set(
                    place.ok_or_else(unknown)?,
                    comment_text(value(option, rest)?.as_encoded_bytes()),
                    option,
                )?;
            }
        }
        Ok(())
    }

    /// What belongs to a report stands beside `--report` alone.
    fn call(self) -> Result<Call, String> {
        let Words { paths, has_table, finds_all, served, page, origin } = self;
        if page.are_without_page() {
            return Err(
                "--force, --date, --case, --examiner and --exhibit go with --report".to_string()
            );
        }
        let (table, log) = match <[PathBuf; 1]>::try_from(paths) {
            Ok([log]) => (None, log),
            Err(paths) => match <[PathBuf; 2]>::try_from(paths) {
                Ok([table, log]) => (Some(table), log),
                Err(paths) => {
                    return Err(format!(
                        "a log, or a table and a log, and {} are named",
                        paths.len()
                    ))
                }
            },
        };
        if log.as_os_str().is_empty() {
            return Err("the name of the log is empty".to_string());
        }
        let page = page.page();
        let night = Night { table, log, served, finds_all, sums: page.is_some() };
        Ok(Call { night, has_table, page, origin })
    }
}

/// The word after an option.
fn value(option: &str, rest: &mut impl Iterator<Item = OsString>) -> Result<OsString, String> {
    rest.next()
        .filter(|word| !word.is_empty())
        .ok_or_else(|| format!("{option} takes a word after it"))
}

/// Sets what is not set yet.
fn set<T>(place: &mut Option<T>, value: T, option: &str) -> Result<(), String> {
    match place.replace(value) {
        None => Ok(()),
        Some(_) => Err(format!("{option} stands twice")),
    }
}
