//! The call of `./compare`.

use std::ffi::{OsStr, OsString};
use std::os::unix::ffi::{OsStrExt, OsStringExt};
use std::path::PathBuf;

use formats::text::comment_text;

use crate::kind::Kind;

pub const USAGE: &str =
    "usage: compare [--json] [--kind-a KIND] [--kind-b KIND] A B, where A and B \
                         are PATH or KIND:PATH, and KIND is session, frames, packed, answer, \
                         maildir, mbox, names, doveadm or cyrus";

/// What is asked for.
#[derive(Debug, PartialEq, Eq)]
pub struct Call {
    pub a: Input,
    pub b: Input,
    pub is_json: bool,
}

/// One of the two tables. A path `-` is standard input.
#[derive(Debug, PartialEq, Eq)]
pub struct Input {
    /// None where the content says it.
    pub kind: Option<Kind>,
    pub path: PathBuf,
}

impl Input {
    pub fn is_standard_input(&self) -> bool {
        self.path.as_os_str() == "-"
    }
}

/// The words of a call, without the program's name.
pub fn read_call(words: impl IntoIterator<Item = OsString>) -> Result<Call, String> {
    let mut words = words.into_iter();
    let (mut kind_a, mut kind_b, mut inputs, mut is_json) = (None, None, Vec::new(), false);
    let mut has_options = true;
    while let Some(word) = words.next() {
        let mut kind = |place: &mut Option<Kind>| {
            let word = comment_text(word.as_bytes());
            let named = words.next().ok_or_else(|| format!("{word} takes a kind"))?;
            let kind = named.to_str().and_then(Kind::of_word);
            match place.replace(kind.ok_or_else(|| unknown_kind(&named))?) {
                None => Ok(()),
                Some(_) => Err(format!("{word} stands twice")),
            }
        };
        match word.to_str().filter(|_| has_options) {
            Some("--json") => is_json = true,
            Some("--kind-a") => kind(&mut kind_a)?,
            Some("--kind-b") => kind(&mut kind_b)?,
            Some("--") => has_options = false,
            Some(option) if option.starts_with('-') && option != "-" => {
                return Err(format!("unknown option {}", comment_text(option.as_bytes())));
            }
            _ => inputs.push(word),
        }
    }
    let [a, b] = <[OsString; 2]>::try_from(inputs)
        .map_err(|inputs| format!("two tables are compared, and {} are named", inputs.len()))?;
    let (a, b) = (input_of(a, kind_a)?, input_of(b, kind_b)?);
    if a.is_standard_input() && b.is_standard_input() {
        return Err("standard input is one of the two tables at most".to_string());
    }
    Ok(Call { a, b, is_json })
}

/// PATH, or KIND:PATH where no option names the kind.
fn input_of(word: OsString, kind: Option<Kind>) -> Result<Input, String> {
    let (kind, path) = match kind {
        Some(kind) => (Some(kind), word.into_vec()),
        None => split_kind(&word),
    };
    if path.is_empty() {
        return Err("the name of a table is empty".to_string());
    }
    Ok(Input { kind, path: PathBuf::from(OsString::from_vec(path)) })
}

fn split_kind(word: &OsStr) -> (Option<Kind>, Vec<u8>) {
    let bytes = word.as_bytes();
    let colon = bytes.iter().position(|&byte| byte == b':');
    let kind = colon.and_then(|at| Kind::of_word(str::from_utf8(&bytes[..at]).ok()?));
    match (kind, colon) {
        (Some(kind), Some(at)) => (Some(kind), bytes[at + 1..].to_vec()),
        _ => (None, bytes.to_vec()),
    }
}

fn unknown_kind(word: &OsStr) -> String {
    let kinds = Kind::ALL.map(Kind::word).join(", ");
    format!("{} is no kind; the kinds are {kinds}", comment_text(word.as_bytes()))
}
