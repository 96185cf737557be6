//! `replay --kit --page FILE [[--table TABLE] LOG].. <PROOF`, behind `./verify`, which hands over what is proved on standard input.
//!
//! Replays each night and writes one page about all of it. Where something is not proved, nothing is replayed. The status
//! is the worst of what was found, in this order: 4 something is not proved, or trouble with the machine; 2 a wrong call or
//! file; 3 a log is refused with 13; 1 an answer differs; 0 all is verified.

use std::ffi::OsString;
use std::io::{self, Read, Write};
use std::path::{Path, PathBuf};

use formats::date::now;
use formats::text::path_text;
use replay::{
    in_stack, kit_page, kit_text, replay_night, Failure, Night, Progress, Proof, Verified,
};
use session::{is_same_file, NewFile};

use crate::messages::tell;

const USAGE: &str = "usage: replay --kit --page FILE [[--table TABLE] LOG].. <PROOF";

/// Does what the words after `--kit` ask for.
pub fn verify(words: impl IntoIterator<Item = OsString>) -> Result<u8, Failure> {
    let (page, nights) = read_call(words).map_err(Failure::NotRun)?;
    run(&page, nights).map_err(Failure::Trouble)
}

fn run(page: &Path, nights: Vec<Night>) -> Result<u8, String> {
    let mut text = String::new();
    io::stdin()
        .lock()
        .read_to_string(&mut text)
        .map_err(|error| format!("what is proved cannot be read: {error}"))?;
    let proof = Proof::read(&text)?;
    let file = NewFile::create(page, false)?;
    let is_proved = proof.against().is_empty();
    let replayed = |night: Night| {
        let account = match is_proved {
            true => {
                in_stack(|| replay_night(&night, &mut |progress| tell_progress(&night, progress)))
            }
            false => Err(Failure::Trouble(
                "not everything is proved, so nothing is replayed".to_string(),
            )),
        };
        (night, account)
    };
    let nights = nights.into_iter().map(replayed).collect();
    let verified = Verified { proof, nights, clock: now(), tool: env!("CARGO_PKG_VERSION") };
    file.write(&kit_page(&verified))?;
    let mut output = io::stdout().lock();
    let written = output.write_all(kit_text(&verified).as_bytes()).and_then(|()| output.flush());
    written.map_err(|error| format!("cannot write the output: {error}"))?;
    Ok(verified.status())
}

/// The page, and the nights.
fn read_call(words: impl IntoIterator<Item = OsString>) -> Result<(PathBuf, Vec<Night>), String> {
    let mut words = words.into_iter();
    let (mut page, mut table, mut nights) = (None, None, Vec::new());
    while let Some(word) = words.next() {
        match word.to_str() {
            Some("--page") => page = Some(PathBuf::from(words.next().ok_or(USAGE)?)),
            Some("--table") if table.is_none() => {
                table = Some(PathBuf::from(words.next().ok_or(USAGE)?))
            }
            Some(option) if option.starts_with("--") => return Err(USAGE.to_string()),
            _ => {
                let log = PathBuf::from(word);
                nights.push(Night {
                    table: table.take(),
                    log,
                    served: None,
                    finds_all: true,
                    sums: true,
                });
            }
        }
    }
    let page: PathBuf = page.filter(|_| table.is_none() && !nights.is_empty()).ok_or(USAGE)?;
    let is_page = |file: &PathBuf| is_same_file(file, &page);
    if nights.iter().any(|night| is_page(&night.log) || night.table.as_ref().is_some_and(is_page)) {
        return Err(format!("{} is read here, so no page is written there", path_text(&page)));
    }
    Ok((page, nights))
}

fn tell_progress(night: &Night, Progress { bytes, of, commands }: Progress) {
    let of = of.map_or(String::new(), |of| format!(" of {of}"));
    tell(format!("{}: {bytes}{of} bytes, {commands} commands run again", night.log_text()));
}
