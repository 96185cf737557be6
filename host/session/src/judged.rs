//! What a program's answers say of the table and of the namespace list that it keeps.
//!
//! A command from a reader up to 7 has the table looked at first (refusal 1) and then the list
//! (refusal 2), and a walk the table; so any other answer says that what was looked at passes.

use formats::frames::Frame;
use formats::readers::Reader;
use formats::refusal::Refusal;
use formats::reply::Reply;

/// What was said last of each. One without rows or entries passes.
#[derive(Clone, Copy, Debug, Default, PartialEq, Eq)]
pub struct Judged {
    pub table: Standing,
    pub namespaces: Standing,
}

#[derive(Clone, Copy, Debug, Default, PartialEq, Eq)]
pub enum Standing {
    #[default]
    Passes,
    Refused,
    /// It was added to since it was looked at.
    NotAsked,
}

impl Judged {
    /// Takes a frame and what came of it: no reply where a row or an entry was kept.
    pub fn take(&mut self, frame: Option<&Frame>, reply: Option<&Reply>) {
        match (frame, reply) {
            (Some(Frame::Row(_)), None) => self.table = Standing::NotAsked,
            (Some(Frame::Entry(_)), None) => self.namespaces = Standing::NotAsked,
            (Some(Frame::Command { reader, .. }), Some(reply)) if is_looked_at(*reader, reply) => {
                match refusal_of(reply) {
                    Some(Refusal::TABLE) => self.table = Standing::Refused,
                    Some(Refusal::NAMESPACES) => {
                        (self.table, self.namespaces) = (Standing::Passes, Standing::Refused);
                    }
                    _ => *self = Judged::default(),
                }
            }
            (Some(Frame::Walk { reader, .. }), Some(reply)) if is_looked_at(*reader, reply) => {
                self.table = match refusal_of(reply) {
                    Some(Refusal::TABLE) => Standing::Refused,
                    _ => Standing::Passes,
                };
            }
            _ => {}
        }
    }
}

/// Whether the table was looked at before this answer was given.
fn is_looked_at(reader: u8, reply: &Reply) -> bool {
    let is_bad = matches!(reply, Reply::Unreadable(_)) || refusal_of(reply) == Some(Refusal::FRAME);
    Reader::of(reader).is_some() && !is_bad
}

fn refusal_of(reply: &Reply) -> Option<Refusal> {
    match reply {
        Reply::Refused(number) => Refusal::from_number(*number),
        _ => None,
    }
}
