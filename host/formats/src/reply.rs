//! What a program answers.

use crate::frames::{Frame, ANSWER, REFUSAL, WALK};
use crate::hex::bytes_of_hex;

/// An answer line, read.
#[derive(Clone, Debug, PartialEq, Eq)]
pub enum Reply {
    Lines(Vec<u8>),
    Walked {
        count: u16,
        found: Vec<Vec<u8>>,
    },
    /// The number, which need not be one of document 01's.
    Refused(u8),
    Unreadable(Vec<u8>),
}

impl Reply {
    /// An answer line without its LF. "Answers in upper case"
    pub fn of(line: &[u8]) -> Reply {
        let bytes = bytes_of_hex(line).filter(|_| !line.iter().any(u8::is_ascii_lowercase));
        let reply = match bytes.as_deref() {
            Some([ANSWER, lines @ ..]) => Some(Reply::Lines(lines.to_vec())),
            Some([WALK, high, low, found @ ..]) => names_of(found)
                .map(|found| Reply::Walked { count: u16::from_be_bytes([*high, *low]), found }),
            Some([REFUSAL, number]) => Some(Reply::Refused(*number)),
            _ => None,
        };
        reply.unwrap_or_else(|| Reply::Unreadable(line.to_vec()))
    }

    /// The same, but no answer to a frame of another kind.
    pub fn to_frame(line: &[u8], frame: Option<&Frame>) -> Reply {
        let reply = Reply::of(line);
        let fits = match &reply {
            Reply::Lines(_) => matches!(frame, Some(Frame::Command { .. })),
            Reply::Walked { .. } => matches!(frame, Some(Frame::Walk { .. })),
            Reply::Refused(_) | Reply::Unreadable(_) => true,
        };
        if fits {
            reply
        } else {
            Reply::Unreadable(line.to_vec())
        }
    }
}

/// Names, "each as a length byte and the name".
fn names_of(mut bytes: &[u8]) -> Option<Vec<Vec<u8>>> {
    let mut names = Vec::new();
    while let Some((&length, rest)) = bytes.split_first() {
        let (name, rest) = rest.split_at_checked(usize::from(length))?;
        names.push(name.to_vec());
        bytes = rest;
    }
    Some(names)
}
