//! A session: a file of items or of frames, checked whole before anything is run.
//!
//! A session file has one item a line, its words parted by spaces or tabs; empty lines and lines that
//! start with `#` are no items.
//!
//! | Item | Example |
//! |---|---|
//! | a row of the table | `mailbox Foo/Baz exists subscribed`, `mailbox "a b" 0003` |
//! | a row that some readers see | `mailbox Foo exists readers 0,3`, `readers none`, `readers all` |
//! | who sends what comes after | `reader 3` |
//! | a namespace entry | `namespace personal "" "/"`, `namespace shared "#mh/" NIL` |
//! | a command; CR LF is added | `command a LIST "" "*"` |
//! | a command with literals | `command a LIST "" {3}`, and in the next line `+ Foo RETURN ()` |
//! | an edit, sent as a command | `subscribe Foo/Baz`, `unsubscribe "a b"` |
//! | a walk | `walk`, `walk remote`, `walk special-use without-subscribed`, `walk 6` |
//! | a walk by the library, with larger buffers | `walk large`, `walk large remote` |
//! | a frame as it is sent | `frame 5700FF` |
//! | what the item before is refused with | `expect 7` |
//! | mailbox lines stay as they stand | `order as-given` |
//!
//! A command goes on in each line that starts with `+` and follows it at once: CR LF and what comes
//! after `+` and one space are added, whatever that is. So `{3}` at the end of a line makes a literal
//! of the first three bytes after the next `+`, and without such a line the literal is cut short. A
//! literal that has CR LF in it has several such lines.
//!
//! Rows are sent by the bytes of their names, among those that stand between two items which are
//! answered; entries in the order in which they stand. After an edit that was answered, the program
//! takes no row.
//!
//! All readers see a row that does not say who does. Commands, edits and walks come from reader 0 up to
//! the first `reader`, and then from the one that the last `reader` before them names.
//!
//! A file whose first line is a frame is a file of frames, and its lines are sent as they stand.

use std::io::{self, Write};

use crate::error::SessionError;
use crate::frames::{Frame, SentFrame};
use crate::item::{Content, Item, Origin, Sent};
use crate::items::{lines_of, Items, Lines};
use crate::order::Ordered;
use crate::readers::Reader;
use crate::sha256::{sum_of_bytes, Sum};
use crate::source::Source;

/// Of bad lines no more are kept.
const MOST_BAD_LINES: usize = 1_000;

/// This tool's own command. It is refused with 1 where the table does not pass, with 2 where the
/// namespace list does not, and else answered.
const OWN_COMMAND: &[u8] = b"own-check NAMESPACE\r\n";

/// A session whose lines can be read.
#[derive(Debug)]
pub struct Session {
    source: Source,
    lines: Lines,
    /// How many items it has that are sent, or walked by the library.
    pub length: u64,
    /// Whether one of them is a walk by the library.
    pub has_large_walk: bool,
    /// Whether it is a file of frames whose lines end in CR LF, so that CR belongs to each frame.
    pub has_cr_frames: bool,
    asked: Asked,
}

/// What the frames so far leave to ask.
#[derive(Clone, Copy, Debug, Default)]
struct Asked {
    /// Rows came after the last frame whose answer says whether the table passes.
    has_new_rows: bool,
    /// Entries came after the last frame whose answer says whether the namespace list passes.
    has_new_entries: bool,
    /// The last frame has no LF after it, so nothing can be sent after it.
    is_cut: bool,
}

/// Whether the table and the namespace list are asked about at the end.
#[derive(Clone, Copy, Debug, PartialEq, Eq)]
pub enum EndCheck {
    /// The session has asked after its last row and its last entry.
    Done,
    /// This tool asks, by a command of its own.
    Own,
    /// Nobody asks, and nothing can be sent after a last frame without LF.
    Impossible,
}

impl Session {
    /// Reads every line once. The error has every line that is no item.
    pub fn check(source: Source) -> Result<Session, SessionError> {
        let (lines, has_cr) = lines_of(&mut source.open())?;
        let has_cr_frames = has_cr && lines == Lines::Frames;
        let asked = Asked::default();
        let mut session =
            Session { source, lines, length: 0, has_large_walk: false, has_cr_frames, asked };
        let (mut all_bad, mut more) = (Vec::new(), 0);
        for item in session.items()? {
            match item {
                Ok(item) => session.count(&item.content),
                Err(SessionError::Lines { bad, .. }) if all_bad.len() < MOST_BAD_LINES => {
                    all_bad.extend(bad);
                }
                Err(SessionError::Lines { bad, .. }) => more += bad.len() as u64,
                Err(unreadable) => return Err(unreadable),
            }
        }
        if all_bad.is_empty() {
            return Ok(session);
        }
        Err(SessionError::Lines { bad: all_bad, more })
    }

    fn count(&mut self, content: &Content) {
        if let Content::Sent(sent) = content {
            self.length += 1;
            match sent.origin {
                // The library looks at the table then, and not the program.
                Origin::LargeWalk => self.has_large_walk = true,
                _ => self.asked.take(&sent.frame),
            }
        }
    }

    /// Whether it is a file of frames.
    pub fn is_frames(&self) -> bool {
        self.lines == Lines::Frames
    }

    /// The sum of its bytes, as they stand.
    pub fn sum(&self) -> Sum {
        sum_of_bytes(self.source.as_ref())
    }

    /// The items in the order in which they are sent.
    pub fn items(
        &self,
    ) -> Result<impl Iterator<Item = Result<Item, SessionError>> + Send, SessionError> {
        Ok(Ordered::new(Items::new(&self.source, self.lines)))
    }

    pub fn end_check(&self) -> EndCheck {
        match self.asked {
            Asked { has_new_rows: false, has_new_entries: false, .. } => EndCheck::Done,
            Asked { is_cut: false, .. } => EndCheck::Own,
            Asked { is_cut: true, .. } => EndCheck::Impossible,
        }
    }

    /// What sends the session: the bytes of a file of frames as they stand, or the frames of the
    /// items; and then this tool's own command, if it asks.
    pub fn sender(
        &self,
    ) -> Result<impl FnOnce(&mut dyn Write) -> io::Result<()> + Send, SessionError> {
        let (mut bytes, items) = (self.source.open(), self.items()?);
        let lines = self.lines;
        let own = (self.end_check() == EndCheck::Own).then(own_command);
        Ok(move |output: &mut dyn Write| {
            match lines {
                Lines::Frames => io::copy(&mut bytes, output).map(|_| ())?,
                Lines::Items => send_items(items, output)?,
            }
            own.map_or(Ok(()), |own| send_frame(&own, output))?;
            output.flush()
        })
    }
}

impl Asked {
    fn take(&mut self, frame: &SentFrame) {
        self.is_cut = frame.is_cut;
        if frame.is_cut {
            return;
        }
        match Frame::decode(&frame.text) {
            Ok(Frame::Row(_)) => self.has_new_rows = true,
            Ok(Frame::Entry(_)) => self.has_new_entries = true,
            // A reader above 7 is refused before anything is looked at.
            Ok(Frame::Command { reader, .. }) if Reader::of(reader).is_some() => {
                *self = Asked::default();
            }
            Ok(Frame::Walk { reader, .. }) if Reader::of(reader).is_some() => {
                self.has_new_rows = false;
            }
            Ok(Frame::Command { .. } | Frame::Walk { .. }) | Err(_) => {}
        }
    }
}

/// This tool's own command, as it is sent after the session.
pub fn own_command() -> Sent {
    let reader = Reader::EDITOR.number();
    let text = Frame::Command { reader, line: OWN_COMMAND.to_vec() }.encode();
    let length = text.len() as u64;
    let frame = SentFrame { text, is_cut: false };
    Sent { frame, length, origin: Origin::Other, expected: None }
}

fn send_items(
    items: impl Iterator<Item = Result<Item, SessionError>>,
    output: &mut dyn Write,
) -> io::Result<()> {
    for item in items {
        if let Content::Sent(sent) = item.map_err(io::Error::other)?.content {
            if sent.origin != Origin::LargeWalk {
                send_frame(&sent, output)?;
            }
        }
    }
    Ok(())
}

fn send_frame(sent: &Sent, output: &mut dyn Write) -> io::Result<()> {
    output.write_all(&sent.frame.text)?;
    output.write_all(b"\n")
}
