//! The feeder: takes the bytes of a connection in chunks of any length and hands over whole
//! commands.

use crate::raw::{self, FeederState};
use crate::refusal::Refusal;

/// The bytes that a command needs to be fed into.
pub const COMMAND_ROOM: usize = 2_048;

/// The number of the place where bytes are dropped.
const DROPPING: u8 = 7;

/// What came of a call of `feed`.
#[derive(Clone, Copy, Debug, PartialEq, Eq)]
pub enum Happening {
    /// No byte so far makes anything so.
    Nothing,
    /// A whole command, the first so many bytes of the lent memory.
    Command(usize),
    /// The continuation line is to be sent.
    GoOn,
    /// The command is refused; the bytes through its end are dropped.
    Refused(Refusal),
    /// The lent memory is too short, or the state has more bytes than a command: no byte is taken.
    NotTaken,
}

/// What a call of `feed` gives.
#[derive(Clone, Copy, Debug, PartialEq, Eq)]
pub struct Fed {
    /// What came of the bytes that were taken.
    pub happening: Happening,
    /// Bytes of the chunk that were taken.
    pub used: usize,
    /// For the next call.
    pub state: FeederState,
}

/// What a feeder tells, in the order of the bytes that make it so.
#[derive(Clone, Debug, PartialEq, Eq)]
pub enum Event {
    /// A whole command, its literals in it and its CR LF at its end.
    Command(Vec<u8>),
    /// The command is refused; the bytes through its end are dropped.
    Refused(Refusal),
    /// The continuation line is to be sent.
    GoOn,
}

/// A feeder with the memory that it needs.
pub struct Feeder {
    state: FeederState,
    command: Box<[u8; COMMAND_ROOM]>,
}

/// Takes bytes of a chunk, through the first that something comes of.
///
/// ```
/// use luspemaro::{feed, FeederState, Happening, COMMAND_ROOM};
///
/// let mut command = [0; COMMAND_ROOM];
/// let chunk = b"a NAMESPACE\r\nb LI";
/// let fed = feed(FeederState::default(), &mut command, chunk);
/// assert_eq!((fed.happening, fed.used), (Happening::Command(13), 13));
/// assert_eq!(&command[..13], &chunk[..13]);
/// let fed = feed(fed.state, &mut command, &chunk[13..]);
/// assert_eq!((fed.happening, fed.used), (Happening::Nothing, 4));
/// ```
pub fn feed(state: FeederState, command: &mut [u8], chunk: &[u8]) -> Fed {
    let fed = raw::feed(state, command, chunk);
    let happening = match fed.event {
        0 => Happening::Nothing,
        1 => Happening::Command(fed.length),
        2 => Happening::GoOn,
        3 => Refusal::check(fed.number).map_or_else(Happening::Refused, |()| Happening::Nothing),
        _ => Happening::NotTaken,
    };
    let (has_length, has_number) = (fed.event == 1, fed.event == 3);
    assert!((fed.length == 0 || has_length) && (fed.number == 0 || has_number), "an odd event");
    Fed { happening, used: fed.used, state: fed.state }
}

/// Writes the continuation line at a place, as far as `out` goes, and gives the place after it.
///
/// ```
/// let mut out = *b"........";
/// assert_eq!(luspemaro::put_go_on(&mut out, 1), 7);
/// assert_eq!(&out, b".+ go\r\n.");
/// ```
pub fn put_go_on(out: &mut [u8], at: usize) -> usize {
    raw::put_go_on(out, at)
}

impl Default for Feeder {
    fn default() -> Feeder {
        Feeder { state: FeederState::default(), command: Box::new([0; COMMAND_ROOM]) }
    }
}

impl Feeder {
    /// Takes a whole chunk, which may be empty.
    ///
    /// ```
    /// use luspemaro::{Event, Feeder};
    ///
    /// let mut feeder = Feeder::default();
    /// assert_eq!(feeder.feed(b"a LIST \"\" {1}\r\n"), [Event::GoOn]);
    /// assert_eq!(feeder.feed(b"%\r\n"), [Event::Command(b"a LIST \"\" {1}\r\n%\r\n".to_vec())]);
    /// ```
    pub fn feed(&mut self, mut chunk: &[u8]) -> Vec<Event> {
        let mut events = Vec::new();
        loop {
            let fed = feed(self.state, &mut *self.command, chunk);
            self.state = fed.state;
            chunk = &chunk[fed.used..];
            events.extend(self.event(fed.happening));
            if chunk.is_empty() {
                return events;
            }
            assert!(fed.used > 0, "no byte was taken");
        }
    }

    /// The command's bytes so far; or, where bytes are dropped, whether the last one is CR.
    ///
    /// ```
    /// use luspemaro::{Event, Feeder, Refusal};
    ///
    /// let mut feeder = Feeder::default();
    /// feeder.feed(b"a LI");
    /// assert_eq!(feeder.kept(), Ok(&b"a LI"[..]));
    /// // No line holds 00.
    /// assert_eq!(feeder.feed(b"\0\r"), [Event::Refused(Refusal::LineShape)]);
    /// assert_eq!(feeder.kept(), Err(true));
    /// ```
    pub fn kept(&self) -> Result<&[u8], bool> {
        if self.state.place == DROPPING {
            Err(self.state.cr != 0)
        } else {
            Ok(&self.command[..self.state.size])
        }
    }

    /// Whether nothing is left over from the bytes before.
    ///
    /// ```
    /// let mut feeder = luspemaro::Feeder::default();
    /// feeder.feed(b"a NAMESPACE\r");
    /// assert!(!feeder.is_first());
    /// feeder.feed(b"\n");
    /// assert!(feeder.is_first());
    /// ```
    pub fn is_first(&self) -> bool {
        self.state == FeederState::default()
    }

    fn event(&self, happening: Happening) -> Option<Event> {
        match happening {
            Happening::Nothing | Happening::NotTaken => None,
            Happening::Command(length) => Some(Event::Command(self.command[..length].to_vec())),
            Happening::GoOn => Some(Event::GoOn),
            Happening::Refused(refusal) => Some(Event::Refused(refusal)),
        }
    }
}
