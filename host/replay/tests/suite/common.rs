//! Nights for the tests: recorded by the server itself, in this process.

use std::fs;
use std::io;
use std::path::{Path, PathBuf};
use std::process::{Command, Output};
use std::time::Duration;

use child::testing::{new_file, new_path, output_for};
use luspemaro::{Reader, Verdict};
use replay::{in_stack, replay_night, Account, Night};
use serve::{
    converse, load, start_text, Account as Served, Client, FrameLog, Keeping, Log, Peer, Rooms,
    Table, Woken,
};

pub const REPLAY: &str = env!("CARGO_BIN_EXE_replay");
const FOLDER: &str = env!("CARGO_TARGET_TMPDIR");
/// The bundled night and the session that it was recorded over.
pub const BUNDLED: &str = concat!(env!("CARGO_MANIFEST_DIR"), "/../nights/customers.frames");
pub const CUSTOMERS: &str = concat!(env!("CARGO_MANIFEST_DIR"), "/../sessions/customers.session");

/// An implied parent, a special use, a row that some readers do not see, one that does not exist.
pub const SESSION: &str = r##"
mailbox INBOX exists marked subscribed
mailbox Customers/ABC exists subscribed
mailbox Hidden exists subscribed readers 1
mailbox Sent exists sent
mailbox Gone subscribed
namespace personal "" "/"
namespace shared "#sha\"red/" "/"
"##;

/// Commands of every kind: edits that insert, change and remove a row, some that change none, literals, and refusals.
pub const COMMANDS: &[u8] = b"a LIST \"\" *\r\nb LSUB \"\" %\r\nc SUBSCRIBE Sent\r\nd SUBSCRIBE {3}\r\nNew\r\n\
    e LIST (SUBSCRIBED RECURSIVEMATCH) \"\" \"%\" RETURN (CHILDREN)\r\nf UNSUBSCRIBE Gone\r\ng SUBSCRIBE \"*\"\r\n\
    h NAMESPACE\r\ni NOOP\r\nj LIST (RECURSIVEMATCH) \"\" *\r\nk UNSUBSCRIBE nothing\r\nl LIST \"\" {1}\r\n*\r\nm\r\n\
    n LOGIN a b\r\no LSUB \"\" *\r\n";

/// A new path in the folder of the tests.
pub fn path(name: &str) -> PathBuf {
    new_path(FOLDER, name)
}

/// A new file.
pub fn file(name: &str, text: impl AsRef<[u8]>) -> PathBuf {
    new_file(FOLDER, name, text)
}

pub fn word(path: &Path) -> &str {
    path.to_str().expect("text")
}

pub fn read(path: &Path) -> String {
    fs::read_to_string(path).expect("a file")
}

pub fn text(bytes: &[u8]) -> String {
    String::from_utf8_lossy(bytes).into_owned()
}

/// A server's account over a session, whose record and log are kept.
pub fn account_of(session: &str, record: &Path, log: Option<&Path>) -> Served {
    let loaded = load(&file("table.session", session)).expect("a session");
    let table = Table::new(&loaded.rows, &loaded.entries, Rooms::PROGRAM).expect("a table");
    let mut keeping = Keeping {
        record: Some(FrameLog::create(record, &table).expect("a record")),
        ..Keeping::default()
    };
    if let Some(log) = log {
        let mut log = Log::open(log).expect("a log");
        log.add(None, None, format!("start: x: {}", start_text(&table, Reader::EDITOR)))
            .expect("a line");
        keeping.log = Some(log);
    }
    Served::new(table, keeping)
}

/// A client of a reader that sends commands and reads the answers.
pub fn converse_with(account: &Served, reader: u8, commands: &[u8]) -> Vec<u8> {
    let peer = Peer { connection: u64::from(reader) + 1, address: "test".to_string() };
    let reader = Reader::new(reader).expect("a reader");
    let client = Client { peer, reader, accepts_login: false, idle: None };
    let mut output = Vec::new();
    let wait = |_: Option<Duration>| -> io::Result<Woken> { Ok(Woken::Input) };
    converse(account, &client, &mut &commands[..], &mut output, wait).expect("an end");
    output
}

/// The record of the commands of all readers, edits among them.
pub fn recorded(session: &str, commands: &[u8]) -> PathBuf {
    let record = path("night.frames");
    let account = account_of(session, &record, None);
    for reader in [0, 1, 3] {
        converse_with(&account, reader, commands);
    }
    account.end().expect("a record");
    record
}

/// The account of a log that brings its table.
pub fn replayed(log: &Path) -> Account {
    let night = Night { log: log.to_path_buf(), finds_all: true, sums: true, ..Night::default() };
    in_stack(|| replay_night(&night, &mut |_| {})).expect("an account")
}

pub fn verdict(log: &Path) -> Verdict {
    replayed(log).followed.verdict
}

/// The program with these words.
pub fn run(words: &[&str]) -> Output {
    run_with(words, b"")
}

/// The program with these words and an input.
pub fn run_with(words: &[&str], input: &[u8]) -> Output {
    let mut command = Command::new(REPLAY);
    command.args(words);
    output_for(command, input)
}

/// The status, the first line, and all that was printed.
pub fn came(output: &Output) -> (Option<i32>, String, String) {
    let all = text(&output.stdout);
    (output.status.code(), all.lines().next().unwrap_or_default().to_string(), all)
}

/// The lines of a record after those of its table.
pub fn split_record(record: &str) -> (String, Vec<String>) {
    let is_heading = |line: &&str| line.starts_with("4D") || line.starts_with("4E");
    let heading = record.lines().take_while(is_heading).map(|line| format!("{line}\n")).collect();
    let frames = record.lines().skip_while(is_heading).map(str::to_string).collect();
    (heading, frames)
}
