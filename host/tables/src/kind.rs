//! The kinds of tables, and which of them a file is, by its content.

use formats::error::SessionError;
use formats::frames::Frame;
use formats::item::Content;
use formats::rows::{split_rows, MAX_TABLE};
use formats::session::Session;
use formats::source::Source;
use import::answer::read_answer;
use import::{ListForm, TextForm, Told};

use crate::second_program::passes;

/// What a table is read from.
#[derive(Clone, Copy, Debug, PartialEq, Eq)]
pub enum Kind {
    Session,
    Frames,
    Packed,
    Answer,
    Maildir,
    Mbox,
    Names,
    Doveadm,
    Cyrus,
}

impl Kind {
    pub const ALL: [Kind; 9] = [
        Kind::Session,
        Kind::Frames,
        Kind::Packed,
        Kind::Answer,
        Kind::Maildir,
        Kind::Mbox,
        Kind::Names,
        Kind::Doveadm,
        Kind::Cyrus,
    ];

    /// The word for it in a call.
    pub const fn word(self) -> &'static str {
        match self {
            Kind::Session => "session",
            Kind::Frames => "frames",
            Kind::Packed => "packed",
            Kind::Answer => "answer",
            Kind::Maildir => "maildir",
            Kind::Mbox => "mbox",
            Kind::Names => "names",
            Kind::Doveadm => "doveadm",
            Kind::Cyrus => "cyrus",
        }
    }

    /// What it is, with an article.
    pub const fn text(self) -> &'static str {
        match self {
            Kind::Session => "a session file",
            Kind::Frames => "a file of frames",
            Kind::Packed => "a packed table",
            Kind::Answer => "a recorded answer",
            Kind::Maildir => "a Maildir",
            Kind::Mbox => "an mbox tree",
            Kind::Names => "a list of names",
            Kind::Doveadm => "a list of doveadm",
            Kind::Cyrus => "a list of Cyrus",
        }
    }

    /// Whether it is a tree of folders.
    pub const fn is_tree(self) -> bool {
        matches!(self, Kind::Maildir | Kind::Mbox)
    }

    /// The form of a file of a store.
    pub fn text_form(self) -> Option<TextForm> {
        let list = match self {
            Kind::Answer => return Some(TextForm::Answer),
            Kind::Names => ListForm::Names,
            Kind::Doveadm => ListForm::Doveadm,
            Kind::Cyrus => ListForm::Cyrus,
            Kind::Session | Kind::Frames | Kind::Packed | Kind::Maildir | Kind::Mbox => {
                return None
            }
        };
        Some(TextForm::List(list, list.usual_delimiter()))
    }

    pub fn of_word(word: &str) -> Option<Kind> {
        Kind::ALL.into_iter().find(|kind| kind.word() == word)
    }

    /// The one kind that a file can be, by its content; or why that cannot be said. Any text may be a list
    /// of names, so a list is never seen by its content.
    pub fn of_bytes(bytes: &[u8]) -> Result<Kind, String> {
        if bytes.is_empty() {
            return Err("it is empty, so its kind cannot be seen".to_string());
        }
        let session = session_kind(bytes);
        let packed = is_packed(bytes).then_some(Kind::Packed);
        // Each line of a session file is an item, and none of an answer is.
        let is_answer = session.is_err() && read_answer(bytes, &mut Told::default()).is_some();
        let answer = is_answer.then_some(Kind::Answer);
        let mixed = (is_answer && has_mailbox_line(bytes)).then_some(Kind::Session);
        let kinds = [session.as_ref().ok().copied().or(mixed), packed, answer];
        let kinds: Vec<Kind> = kinds.into_iter().flatten().collect();
        match (kinds.as_slice(), session) {
            ([kind], _) => Ok(*kind),
            ([], Err(reason)) => Err(format!(
                "by its content it is neither a session file nor a file of frames ({reason}), \
                 nor a packed table, nor a recorded answer"
            )),
            (kinds, _) => {
                let kinds: Vec<&str> = kinds.iter().map(|kind| kind.text()).collect();
                Err(format!("by its content it may be {}", kinds.join(" or ")))
            }
        }
    }
}

/// A session file with an item, or a file of frames with a frame that can be read; or why it is neither.
fn session_kind(bytes: &[u8]) -> Result<Kind, String> {
    let session = Session::check(Source::of_bytes(bytes)).map_err(|error| match &error {
        SessionError::Lines { bad, .. } => bad.first().map_or(String::new(), ToString::to_string),
        SessionError::Unreadable(_) => error.to_string(),
    })?;
    let is_frame = |content: &Content| {
        let Content::Sent(sent) = content else {
            return false;
        };
        !sent.frame.is_cut && Frame::decode(&sent.frame.text).is_ok()
    };
    let mut items = session.items().map_err(|error| error.to_string())?;
    match session.is_frames() {
        false if session.length > 0 => Ok(Kind::Session),
        false => Err("it has no item".to_string()),
        true if items.any(|item| item.is_ok_and(|item| is_frame(&item.content))) => {
            Ok(Kind::Frames)
        }
        true => Err("no line of it is a frame".to_string()),
    }
}

/// A line that is a row of a session file, and that no answer has.
fn has_mailbox_line(bytes: &[u8]) -> bool {
    bytes.split(|&byte| byte == b'\n').any(|line| line.trim_ascii_start().starts_with(b"mailbox "))
}

/// Rows that fill the file, and that pass or hold a byte 00, which no text has.
fn is_packed(bytes: &[u8]) -> bool {
    let is_filled = bytes.len() <= MAX_TABLE && split_rows(bytes).1.is_empty();
    is_filled && (bytes.contains(&0) || passes(bytes))
}
