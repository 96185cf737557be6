//! The replay of a night: a log of commands and of what was answered to them, run again from the table
//! that it started with.
//!
//! A log is frames, each hexadecimal digits of either case and LF: 43, the reader's byte and a command
//! line; then 41 and its answer, or 52 and the number of its refusal.

use crate::raw::RecordsMut;
use crate::raw_replay::{self, ReplayState};

/// The longest command of a log, its reader first.
pub(crate) const PENDING_ROOM: usize = 2_050;
/// One character more than the longest frame of a log.
pub(crate) const LINE_ROOM: usize = 32_771;
/// The number of a refusal that stops a log.
const BAD_FRAME: u8 = 13;

/// What a replay reports. All frames count, from 1.
#[derive(Clone, Copy, Debug, PartialEq, Eq)]
pub enum Verdict {
    /// Every command is answered now as the log has it.
    Agree,
    /// The number of the first frame of 43 whose recorded answer differs.
    Differs(usize),
    /// 13, whatever differed before: the number of the frame that is unreadable or out of turn, or of the
    /// 43 after which the log ends.
    Refused(usize),
}

/// The report of a replay. The table that was lent is as the commands that were run left it.
#[derive(Clone, Copy, Debug, PartialEq, Eq)]
pub struct Replayed {
    /// Whether the answers are the recorded ones.
    pub verdict: Verdict,
    /// How many of the records are rows now.
    pub count: usize,
}

/// A replay between two pieces of its log, with the memory that it needs, which does not grow with the log.
pub struct Replay {
    pub(crate) state: ReplayState,
    pending: Box<[u8; PENDING_ROOM]>,
    line: Box<[u8; LINE_ROOM]>,
}

/// Runs a whole log over a table: each command, edits included, once its answer is read.
///
/// A table or a list that does not pass is no refusal of the replay: its commands are answered 1 or 2, and
/// that is compared with the log. The same holds for 16, of a reader above 7. The empty log agrees.
///
/// ```
/// use luspemaro::{replay, Record, RecordsMut, Replayed, Summary, Verdict};
///
/// let (mut records, mut area, mut summary) = ([Record::default()], [0; 3], [Summary::default()]);
/// let mut run = |count, log: &[u8]| {
///     let table = RecordsMut { records: &mut records, count, area: &mut area, summary: &mut summary };
///     replay(table, b"", log)
/// };
///
/// // Reader 0 sends "a SUBSCRIBE Foo", and "a OK done" is answered: the table has a row more.
/// let (command, answer) = (b"4300612053554253435249424520466F6F0D0A\n", b"4161204F4B20646F6E650D0A\n");
/// let log = [&command[..], answer].concat();
/// assert_eq!(run(0, &log), Replayed { verdict: Verdict::Agree, count: 1 });
///
/// // The log says that it was refused with 15.
/// let log = [&log, &command[..], b"520F\n"].concat();
/// assert_eq!(run(1, &log), Replayed { verdict: Verdict::Differs(3), count: 1 });
///
/// // The first frame of a log is no answer.
/// assert_eq!(run(1, answer), Replayed { verdict: Verdict::Refused(1), count: 1 });
/// assert_eq!(&area, b"Foo");
/// ```
pub fn replay(table: RecordsMut, namespaces: &[u8], log: &[u8]) -> Replayed {
    let report = raw_replay::replay(table, namespaces, log);
    Replayed { verdict: Verdict::of(report.number, report.frame), count: report.count }
}

impl Verdict {
    /// What the archive says by a number of refusal and the number of a frame.
    pub(crate) fn of(number: u8, frame: usize) -> Verdict {
        match (number, frame) {
            (0, 0) => Verdict::Agree,
            (0, frame) => Verdict::Differs(frame),
            (BAD_FRAME, 1..) => Verdict::Refused(frame),
            _ => panic!("the archive gives the number {number} and frame {frame} for a replay"),
        }
    }
}

impl Default for Replay {
    fn default() -> Replay {
        Replay::new()
    }
}

impl Replay {
    /// A replay at the start of its log.
    pub fn new() -> Replay {
        Replay {
            state: ReplayState::default(),
            pending: Box::new([0; PENDING_ROOM]),
            line: Box::new([0; LINE_ROOM]),
        }
    }

    /// Takes one piece of any length, whole, and gives the report if the log ended with it. However a log is
    /// cut, the last report and the table are those of [`replay`]. After a stop bytes are ignored.
    ///
    /// The table is lent as the call before left it, with the count that it gave. `None` where the piece is not
    /// taken, since there may be more frames than a number counts; then nothing changes.
    ///
    /// ```
    /// use luspemaro::{RecordsMut, Replay, Verdict};
    ///
    /// let mut replay = Replay::new();
    /// let mut feed = |piece: &[u8]| {
    ///     let table = RecordsMut { records: &mut [], count: 0, area: &mut [], summary: &mut [] };
    ///     replay.feed(table, b"", piece).map(|report| report.verdict)
    /// };
    ///
    /// // Reader 0 sends "a NAMESPACE". A log does not end inside of a frame, nor after a command.
    /// assert_eq!(feed(b"430061204E414D45"), Some(Verdict::Refused(1)));
    /// assert_eq!(feed(b"53504143450D0A\n"), Some(Verdict::Refused(1)));
    /// let answer = b"412A204E414D455350414345204E494C204E494C204E494C0D0A61204F4B20646F6E650D0A";
    /// assert_eq!(feed(answer), Some(Verdict::Refused(2)));
    /// assert_eq!(feed(b"\n"), Some(Verdict::Agree));
    /// assert_eq!(replay.frames(), 2);
    /// ```
    pub fn feed(&mut self, table: RecordsMut, namespaces: &[u8], piece: &[u8]) -> Option<Replayed> {
        let (count, before) = (table.count, self.state);
        let (pending, line) = (&mut self.pending[..], &mut self.line[..]);
        let fed = raw_replay::replay_feed(table, before, namespaces, pending, line, piece);
        let taken = fed.taken(count, before);
        self.state = fed.state;
        taken.then(|| Replayed { verdict: Verdict::of(fed.number, fed.frame), count: fed.count })
    }

    /// How many frames have ended.
    ///
    /// ```
    /// assert_eq!(luspemaro::Replay::new().frames(), 0);
    /// ```
    pub fn frames(&self) -> usize {
        self.state.frames
    }
}
