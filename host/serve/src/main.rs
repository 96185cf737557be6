//! `serve [OPTION..] TABLE`
//!
//! An IMAP server for the names of mailboxes, over the proved library: on standard input and output, or
//! with `--listen` on a socket. `./serve --help` says what it takes.

mod call;

use std::fmt::Display;
use std::fs::File;
use std::io;
use std::net::TcpListener;
use std::os::fd::AsFd;
use std::os::unix::net::UnixStream;
use std::process::ExitCode;
use std::sync::Arc;
use std::thread;
use std::time::SystemTime;

use call::{Call, ListenAt, Listening};
use serve::{
    converse, dated, listen, load, start_text, Account, Client, Ending, FrameLog, Keeping, Log,
    Peer, Review, ReviewError, Rooms, Stop, Table, Woken, END_WAIT, THREAD_STACK,
};

/// Trouble with the machine: a socket, a file that cannot be written, input or output that fails.
const TROUBLE: u8 = 1;
/// The call or a file is wrong, and nothing was served.
const NOT_RUN: u8 = 2;
/// The table or an edit of the review file is refused, and nothing was served.
const REFUSED: u8 = 3;

/// What is told on standard error, and the status.
struct Failure {
    status: u8,
    message: String,
}

fn main() -> ExitCode {
    match run() {
        Ok(()) => ExitCode::SUCCESS,
        Err(failure) => {
            tell(&failure.message);
            ExitCode::from(failure.status)
        }
    }
}

fn run() -> Result<(), Failure> {
    let mut call = Call::read().map_err(failed(NOT_RUN))?;
    let account = Arc::new(account_of(&call)?);
    let served = match call.listening.take() {
        Some(listening) => serve_socket(&account, &call, listening),
        None => serve_standard(&account, &call),
    };
    let kept =
        account.end().map_err(|error| failed(TROUBLE)(format!("the record or the log: {error}")));
    served.and(kept)
}

/// The table with the edits of its review file, and a record and a log if they are wanted.
fn account_of(call: &Call) -> Result<Account, Failure> {
    let file = call.table.display();
    let wrong = |error: &dyn Display| format!("{file}: {error}");
    let loaded = load(&call.table).map_err(|error| failed(NOT_RUN)(wrong(&error)))?;
    if loaded.left_out > 0 {
        tell(&format!(
            "{file}: {} items are no rows and no entries, and are left out",
            loaded.left_out
        ));
    }
    let refused = |error| failed(REFUSED)(wrong(&error));
    let mut table = Table::new(&loaded.rows, &loaded.entries, Rooms::WIDE).map_err(refused)?;
    let review = open_review(call, &mut table)?;
    if call.record.is_some() {
        table = table.laid_out(Rooms::PROGRAM).map_err(refused)?;
    }
    let started = start_text(&table, call.reader);
    let mut log = open_log(call, &format!("start: {file}: {started}"))?;
    let record = begin_record(call, &table).inspect_err(|failure| {
        // The failure itself is reported, whatever the log takes.
        let _ = log
            .as_mut()
            .map(|log| log.add(None, None, format!("not started: {}", failure.message)));
    })?;
    tell(&format!("{file}: {started}"));
    Ok(Account::new(table, Keeping { review, record, log }))
}

/// The name of a record may hold the time of the start.
fn begin_record(call: &Call, table: &Table) -> Result<Option<FrameLog>, Failure> {
    let Some(pattern) = &call.record else {
        return Ok(None);
    };
    let path = dated(pattern, SystemTime::now()).map_err(failed(NOT_RUN))?;
    let record = FrameLog::create(path.as_ref(), table)
        .map_err(|error| failed(NOT_RUN)(format!("{path}: {error}")))?;
    if path != *pattern {
        tell(&format!("the record is {path}"));
    }
    Ok(Some(record))
}

/// A log to which not even its first line can be written is trouble.
fn open_log(call: &Call, first: &str) -> Result<Option<Log>, Failure> {
    let Some(path) = &call.log else {
        return Ok(None);
    };
    let trouble = |error: io::Error| failed(TROUBLE)(format!("{}: {error}", path.display()));
    let mut log = Log::open(path).map_err(trouble)?;
    log.add(None, None, first).map_err(trouble)?;
    Ok(Some(log))
}

fn open_review(call: &Call, table: &mut Table) -> Result<Option<Review>, Failure> {
    let Some(path) = &call.review else {
        return Ok(None);
    };
    let file = path.display();
    let (review, replayed) = Review::open(path, table).map_err(|error| {
        let status = match error {
            ReviewError::Failed(_) => TROUBLE,
            ReviewError::OtherTable(_) | ReviewError::BadLine(_) => NOT_RUN,
            ReviewError::Refused(..) => REFUSED,
        };
        failed(status)(format!("{file}: {error}"))
    })?;
    if replayed.cut > 0 {
        let cut = replayed.cut;
        tell(&format!("{file}: {cut} bytes after the last line, of an edit that was not answered, are cut off"));
    }
    if replayed.edits > 0 {
        tell(&format!("{file}: {} edits are made again", replayed.edits));
    }
    Ok(Some(review))
}

fn serve_socket(account: &Arc<Account>, call: &Call, listening: Listening) -> Result<(), Failure> {
    let (listener, place) = match listening.place {
        ListenAt::Address(address) => {
            let trouble = |error| failed(TROUBLE)(format!("{address}: {error}"));
            (TcpListener::bind(address).map_err(trouble)?, address.to_string())
        }
        ListenAt::HandedOver(listener) => (listener, "the socket that is handed over".to_string()),
    };
    let trouble = |error: io::Error| failed(TROUBLE)(format!("{place}: {error}"));
    let address = listener.local_addr().map_err(trouble)?;
    let stop = Stop::on_signals().map_err(trouble)?;
    tell(&format!("listening on {address}"));
    listen(&listener, account, call.reader, call.accepts_login, listening.limits, stop)
        .map_err(trouble)
}

/// In a thread, whose stack is known, where that of the process may be anything. Once the server is to end, a
/// client that takes nothing is not waited for any longer than `END_WAIT`.
fn serve_standard(account: &Arc<Account>, call: &Call) -> Result<(), Failure> {
    let trouble = |error: io::Error| failed(TROUBLE)(format!("input or output failed: {error}"));
    let peer = Peer { connection: 1, address: "tunnel".to_string() };
    let client =
        Client { peer, reader: call.reader, accepts_login: call.accepts_login, idle: None };
    let stop = Arc::new(Stop::on_signals().map_err(trouble)?);
    // Closed when the thread ends.
    let (ended, held) = UnixStream::pair().map_err(trouble)?;
    let (its_account, its_stop) = (Arc::clone(account), Arc::clone(&stop));
    let serve = move || {
        let _held = held;
        converse_standard(&its_account, &client, &its_stop)
    };
    let thread = thread::Builder::new().stack_size(THREAD_STACK).spawn(serve).map_err(trouble)?;
    while stop.wait(ended.as_fd(), None).map_err(trouble)? == Woken::Time {}
    ended.set_read_timeout(Some(END_WAIT)).map_err(trouble)?;
    let has_ended = io::Read::read(&mut &ended, &mut [0]).is_ok();
    if !has_ended {
        return Ok(());
    }
    match thread.join() {
        Ok(ended) => ended.map(drop).map_err(trouble),
        Err(_) => Err(failed(TROUBLE)("the server has failed".to_string())),
    }
}

/// Reads without a buffer of its own, so that what has come is what can be waited for.
fn converse_standard(account: &Account, client: &Client, stop: &Stop) -> io::Result<Ending> {
    let mut input = File::from(io::stdin().as_fd().try_clone_to_owned()?);
    let waited = input.try_clone()?;
    let wait = |most| stop.wait(waited.as_fd(), most);
    converse(account, client, &mut input, &mut io::stdout().lock(), wait)
}

fn failed(status: u8) -> impl Fn(String) -> Failure {
    move |message| Failure { status, message }
}

/// A line of its own for each line. Where standard error cannot be written to, the status alone tells.
fn tell(message: &str) {
    use std::io::Write;
    for line in message.lines() {
        let _ = writeln!(io::stderr(), "serve: {line}");
    }
}
