//! One night: the files of a call, replayed to an account.

use std::fs::File;
use std::io::{self, Read};
use std::path::{Path, PathBuf};
use std::thread;
use std::time::{Duration, Instant};

use formats::sha256::Sum;
use formats::text::path_text;
use session::is_same_file;

use crate::follow::{Following, Lost};
use crate::followed::Followed;
use crate::pieces::Pieces;
use crate::rooms::THREAD_STACK;
use crate::served::{Cursor, LeftOut, ServedLog};
use crate::start::Start;

/// The extension of a server's log that stands beside a record.
const LOG_EXTENSION: &str = "log";
/// A path that is standard input.
const STANDARD_INPUT: &str = "-";
/// Between two lines of progress.
const PROGRESS_EVERY: Duration = Duration::from_secs(2);

/// What is replayed.
#[derive(Clone, Debug, Default)]
pub struct Night {
    /// None where the log brings its table.
    pub table: Option<PathBuf>,
    /// A path `-` is standard input.
    pub log: PathBuf,
    /// The server's log, where one is named.
    pub served: Option<PathBuf>,
    /// Whether every difference is looked for, and not the first alone.
    pub finds_all: bool,
    /// Whether the sum of the log is wanted.
    pub sums: bool,
}

impl Night {
    fn is_input(&self) -> bool {
        self.log.as_os_str() == STANDARD_INPUT
    }

    /// The log as it is named to people.
    pub fn log_text(&self) -> String {
        if self.is_input() {
            "standard input".to_string()
        } else {
            path_text(&self.log)
        }
    }
}

/// What came of it.
#[derive(Debug)]
pub struct Account {
    pub night: Night,
    pub start: Start,
    /// Why the table or the list does not pass, in the second program's words.
    pub faults: Vec<String>,
    pub followed: Followed,
    /// Of the log, all bytes that were read; none where it was not wanted.
    pub log_sum: Option<Sum>,
    /// The server's log that was found, and why it is of no use, if so.
    pub served: FoundLog,
}

/// Why there is no account.
#[derive(Debug, PartialEq, Eq)]
pub enum Failure {
    /// A file is wrong, or cannot be read.
    NotRun(String),
    /// Trouble with the machine, or with this tool.
    Trouble(String),
}

/// How far a replay is: bytes that were read, of so many where that is known, and commands that were run.
pub struct Progress {
    pub bytes: u64,
    pub of: Option<u64>,
    pub commands: u64,
}

/// Replays a night. `tell` is called now and then.
pub fn replay_night(night: &Night, tell: &mut dyn FnMut(Progress)) -> Result<Account, Failure> {
    let wrong = |path: &Path| {
        let path = path_text(path);
        move |why: String| Failure::NotRun(format!("{path}: {why}"))
    };
    let of_file = |path: &PathBuf| Start::of_file(path).map_err(wrong(path));
    let start = night.table.as_ref().map(of_file).transpose()?;
    let (input, length) =
        open(&night.log).map_err(|error| wrong(&night.log)(unreadable(&error)))?;
    let mut pieces = Pieces::new(input, night.sums);
    let (start, table_file) = match start {
        Some(start) => (start, night.table.as_deref().unwrap_or(&night.log)),
        None => {
            let start = Start::of_heading(&mut pieces);
            (start.map_err(|error| wrong(&night.log)(unreadable(&error)))?, night.log.as_path())
        }
    };
    let table = start.table().map_err(wrong(table_file))?;
    let faults = start.faults(&table);
    let (served, cursor) = served_of(night, &start)?;
    let following = Following::new(&start, table, night.finds_all, cursor);
    let followed = follow(following, &mut pieces, length, tell).map_err(|error| match error {
        Broken::Read(error) => {
            Failure::Trouble(format!("{}: {}", night.log_text(), unreadable(&error)))
        }
        Broken::Lost(Lost(why)) => Failure::Trouble(format!("{}: {why}", night.log_text())),
    })?;
    Ok(Account { night: night.clone(), faults, followed, log_sum: pieces.sum(), served, start })
}

/// Runs a call in a thread whose stack is known to have room for the library.
pub fn in_stack<T: Send>(call: impl FnOnce() -> Result<T, Failure> + Send) -> Result<T, Failure> {
    thread::scope(|scope| {
        let thread = thread::Builder::new().stack_size(THREAD_STACK).spawn_scoped(scope, call);
        let thread = thread.map_err(|error| Failure::Trouble(error.to_string()))?;
        thread.join().unwrap_or_else(|_| Err(Failure::Trouble("the replay has failed".to_string())))
    })
}

enum Broken {
    Read(io::Error),
    Lost(Lost),
}

/// The whole log. Where its sum is wanted, all of it is read.
fn follow<R: Read>(
    mut following: Following,
    pieces: &mut Pieces<R>,
    length: Option<u64>,
    tell: &mut dyn FnMut(Progress),
) -> Result<Followed, Broken> {
    let mut told = Instant::now();
    loop {
        let piece = pieces.peek(1).map_err(Broken::Read)?;
        let count = piece.len();
        if count == 0 {
            return following.end().map_err(Broken::Lost);
        }
        following.take(piece).map_err(Broken::Lost)?;
        pieces.take(count);
        if following.is_stopped() && !pieces.has_sum() {
            return following.end().map_err(Broken::Lost);
        }
        if told.elapsed() >= PROGRESS_EVERY {
            told = Instant::now();
            tell(Progress { bytes: pieces.taken(), of: length, commands: following.commands() });
        }
    }
}

/// The log, and its length where it is a plain file.
fn open(path: &Path) -> io::Result<(Box<dyn Read>, Option<u64>)> {
    if path.as_os_str() == STANDARD_INPUT {
        return Ok((Box::new(io::stdin()), None));
    }
    let file = File::open(path)?;
    let data = file.metadata()?;
    if data.is_dir() {
        return Err(io::Error::other("it is a folder, not a file"));
    }
    let length = data.is_file().then_some(data.len());
    Ok((Box::new(file), length))
}

/// A server's log that was found, and why it is of no use, if so.
pub type FoundLog = Option<(PathBuf, Option<LeftOut>)>;

/// The server's log: the one that is named, or the one beside the log. One that is named has to be there.
fn served_of(night: &Night, start: &Start) -> Result<(FoundLog, Option<Cursor>), Failure> {
    let beside = night.log.with_extension(LOG_EXTENSION);
    let is_plain = !night.is_input() && night.log.is_file();
    let is_beside = is_plain && beside.is_file() && !is_same_file(&beside, &night.log);
    let Some(path) = night.served.clone().or(is_beside.then_some(beside)) else {
        return Ok((None, None));
    };
    // What is no plain file can be read once, and a second reader would take its bytes away.
    if !is_plain {
        let why = "this log is no plain file, and is read once".to_string();
        return Ok((Some((path, Some(why.into()))), None));
    }
    let opened = ServedLog::open(&path);
    if let (Err(why), true) = (&opened, night.served.is_some()) {
        return Err(Failure::NotRun(format!("{}: {why}", path_text(&path))));
    }
    let fitting = |log: ServedLog| log.of_record(&night.log, start.lines(), start.rows_sum());
    Ok(match opened.map_err(LeftOut::from).and_then(fitting) {
        Ok(cursor) => (Some((path, None)), Some(cursor)),
        Err(left_out) => (Some((path, Some(left_out))), None),
    })
}

fn unreadable(error: &io::Error) -> String {
    format!("cannot be read: {error}")
}
