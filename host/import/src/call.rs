//! The call of `./import`.

use std::ffi::OsString;
use std::path::PathBuf;

use formats::text::comment_text;

use crate::found::Found;
use crate::gathered::Room;
use crate::kind::{ListForm, Store};
use crate::maildir::Layout;
use crate::output::Output;
use crate::uses::read_uses;
use crate::write::Asked;

pub const USAGE: &str =
    "usage: import maildir DIR [--layout maildir++|fs|dbox] | mbox DIR | answer \
                         FILE | names FILE | doveadm FILE | cyrus FILE; lists: [--delimiter C] \
                         [--subscribed FILE]; [-o FILE [--force]] [--special-use WORD=NAME,..] \
                         [--walk] [--room program|library] [--date TEXT]";

/// What is asked for.
#[derive(Debug, PartialEq, Eq)]
pub struct Call {
    pub store: Store,
    /// Where the session file goes; none is standard output.
    pub output: Option<Output>,
    pub asked: Asked,
    pub room: Room,
    /// What is added to names of the store.
    pub added: Vec<Found>,
    /// None is what the clock says.
    pub date: Option<String>,
}

/// What is wrong with a call.
pub type CallError = String;

/// The words of a call, without the program's name.
pub fn read_call(words: impl IntoIterator<Item = OsString>) -> Result<Call, CallError> {
    let mut words = words.into_iter();
    let (mut kind, mut path) = (None, None);
    let mut options = Options::default();
    while let Some(word) = words.next() {
        match word.to_str() {
            Some(option) if option.starts_with('-') && option != "-" => {
                options.take(option, &mut words)?;
            }
            _ if kind.is_none() => kind = Some(word),
            _ if path.is_none() => path = Some(PathBuf::from(word)),
            _ => return Err(format!("one store at a time, and {} is one more", word.display())),
        }
    }
    let kind = kind.ok_or(format!("{KINDS} is missing"))?;
    let path = path.ok_or("the store is missing")?;
    if path.as_os_str().is_empty() {
        return Err("the name of the store is empty".to_string());
    }
    options.call(&kind, path)
}

const KINDS: &str = "maildir, mbox, answer, names, doveadm or cyrus";

/// The options of a call, as far as it was read.
#[derive(Default)]
struct Options {
    output: Option<PathBuf>,
    is_forced: bool,
    subscribed: Option<PathBuf>,
    delimiter: Option<u8>,
    layout: Option<Layout>,
    room: Option<Room>,
    date: Option<String>,
    has_walk: bool,
    added: Vec<Found>,
}

impl Options {
    fn take(
        &mut self,
        option: &str,
        words: &mut impl Iterator<Item = OsString>,
    ) -> Result<(), CallError> {
        let mut value = || words.next().ok_or(format!("{option} takes a word"));
        match option {
            "-o" => set(&mut self.output, option, PathBuf::from(value()?)),
            "--subscribed" => set(&mut self.subscribed, option, PathBuf::from(value()?)),
            "--delimiter" => set(&mut self.delimiter, option, delimiter_of(&value()?)?),
            "--layout" => set(&mut self.layout, option, layout_of(&value()?)?),
            "--room" => set(&mut self.room, option, room_of(&value()?)?),
            "--date" => set(&mut self.date, option, date_of(&value()?)?),
            "--special-use" => {
                self.added.extend(read_uses(value()?.as_encoded_bytes())?);
                Ok(())
            }
            "--walk" => {
                self.has_walk = true;
                Ok(())
            }
            "--force" => {
                self.is_forced = true;
                Ok(())
            }
            _ => Err(format!("unknown option {option}")),
        }
    }

    fn call(self, kind: &OsString, path: PathBuf) -> Result<Call, CallError> {
        let is_list = kind == "names" || kind == "doveadm" || kind == "cyrus";
        if !is_list && (self.delimiter.is_some() || self.subscribed.is_some()) {
            return Err(
                "--delimiter and --subscribed stand beside names, doveadm and cyrus".to_string()
            );
        }
        if kind != "maildir" && self.layout.is_some() {
            return Err("--layout stands beside maildir alone".to_string());
        }
        if self.is_forced && self.output.is_none() {
            return Err("--force stands beside -o alone".to_string());
        }
        let is_forced = self.is_forced;
        let output = self.output.map(|path| Output { path, is_forced });
        let (delimiter, subscribed) = (self.delimiter, self.subscribed);
        let list = |form: ListForm, file| {
            let delimiter = delimiter.unwrap_or(form.usual_delimiter());
            Store::List { form, file, delimiter, subscribed }
        };
        let store = match kind.to_str() {
            Some("maildir") => Store::Maildir { folder: path, layout: self.layout },
            Some("mbox") => Store::Mbox(path),
            Some("answer") => Store::Answer(path),
            Some("names") => list(ListForm::Names, path),
            Some("doveadm") => list(ListForm::Doveadm, path),
            Some("cyrus") => list(ListForm::Cyrus, path),
            _ => return Err(format!("{} is none of {KINDS}", kind.display())),
        };
        let asked = if self.has_walk { Asked::Walk } else { Asked::Nothing };
        let room = self.room.unwrap_or(Room::Program);
        Ok(Call { store, output, asked, room, added: self.added, date: self.date })
    }
}

fn set<T>(place: &mut Option<T>, option: &str, value: T) -> Result<(), CallError> {
    match place.replace(value) {
        None => Ok(()),
        Some(_) => Err(format!("{option} stands twice")),
    }
}

fn delimiter_of(word: &OsString) -> Result<u8, CallError> {
    match word.as_encoded_bytes() {
        [byte] => Ok(*byte),
        _ => Err("a delimiter is one byte".to_string()),
    }
}

fn date_of(word: &OsString) -> Result<String, CallError> {
    match word.as_encoded_bytes() {
        [] => Err("--date takes the date of the session file".to_string()),
        bytes => Ok(comment_text(bytes)),
    }
}

fn layout_of(word: &OsString) -> Result<Layout, CallError> {
    match word.to_str() {
        Some("maildir++") => Ok(Layout::MaildirPlusPlus),
        Some("fs") => Ok(Layout::Fs),
        Some("dbox") => Ok(Layout::Dbox),
        _ => Err("--layout takes maildir++, fs or dbox".to_string()),
    }
}

fn room_of(word: &OsString) -> Result<Room, CallError> {
    match word.to_str() {
        Some("program") => Ok(Room::Program),
        Some("library") => Ok(Room::Library),
        _ => Err("--room takes program or library".to_string()),
    }
}
