//! Servers and clients for the tests.

use std::fs;
use std::io::{self, BufRead, BufReader, Read, Write};
use std::net::{SocketAddr, TcpStream};
use std::path::{Path, PathBuf};
use std::process::{Child, ChildStderr, Command, Output, Stdio};
use std::time::Duration;

pub use child::testing::output_for;
use child::testing::{new_file, new_path};
use luspemaro::Reader;
use serve::{load, Peer, Rooms, Table, Woken};

pub const SERVE: &str = env!("CARGO_BIN_EXE_serve");
pub const FOLDER: &str = env!("CARGO_TARGET_TMPDIR");
/// No answer takes as long.
const PATIENCE: Duration = Duration::from_secs(60);

/// Implied parents, special uses, quotes, backslashes, a header of a literal; rows that are remote, that do
/// not exist, and that some readers do not see.
pub const SESSION: &str = r##"
mailbox INBOX exists marked subscribed
mailbox Customers/ABC exists subscribed
mailbox Customers/DEF/2019 exists readers 0
mailbox "Quo\"te \\ back" exists subscribed
mailbox Archive exists archive
mailbox Sent exists sent subscribed
mailbox "Trash (old) {3}" exists trash
mailbox Remote/Box exists subscribed remote
mailbox Deep/a/b/c/d exists subscribed drafts readers 0,3
mailbox Gone subscribed
mailbox Hidden exists subscribed readers 1
namespace personal "" "/"
namespace shared "#sha\"red/" "/"
"##;

/// A client of a connection in memory.
pub fn client() -> serve::Client {
    let peer = Peer { connection: 1, address: "test".to_string() };
    serve::Client { peer, reader: Reader::EDITOR, accepts_login: false, idle: None }
}

/// What is in memory is there.
pub fn no_wait(_: Option<Duration>) -> io::Result<Woken> {
    Ok(Woken::Input)
}

/// A path as a word of a call.
pub fn word(path: &Path) -> &str {
    path.to_str().expect("text")
}

/// A new path in the folder of the tests.
pub fn path(name: &str) -> PathBuf {
    new_path(FOLDER, name)
}

/// A new file.
pub fn file(name: &str, text: impl AsRef<[u8]>) -> PathBuf {
    new_file(FOLDER, name, text)
}

pub fn session_file() -> PathBuf {
    file("table.session", SESSION)
}

pub fn table_of(path: &Path, rooms: Rooms) -> Table {
    let loaded = load(path).expect("a file");
    Table::new(&loaded.rows, &loaded.entries, rooms).expect("a table")
}

/// As many rows as a table may have, of which LIST needs more than 16,384 bytes.
pub fn large_session() -> String {
    let row = |number: usize| {
        let flags = ["exists subscribed", "exists", "exists drafts", "subscribed"][number % 4];
        format!("mailbox Folder/{:02}/a-longer-one-{number:03} {flags}\n", number / 10)
    };
    (0..512).map(row).collect()
}

/// The output for an input, and the end.
pub fn tunnel(arguments: &[&str], input: &[u8]) -> Output {
    let mut command = Command::new(SERVE);
    command.args(arguments);
    output_for(command, input)
}

pub fn text(bytes: &[u8]) -> String {
    String::from_utf8_lossy(bytes).into_owned()
}

/// The lines after the greeting.
pub fn answers(output: &Output) -> String {
    let text = text(&output.stdout);
    assert!(text.starts_with("* PREAUTH [CAPABILITY IMAP4rev1 "), "{text}");
    text.split_once("\r\n").expect("a greeting").1.to_string()
}

/// A server that listens. It is ended when this is dropped.
pub struct Server {
    child: Child,
    stderr: BufReader<ChildStderr>,
    pub address: SocketAddr,
}

impl Server {
    pub fn start(table: &Path, arguments: &[&str]) -> Server {
        let mut command = Command::new(SERVE);
        command.args(["--listen", "127.0.0.1:0"]).args(arguments).arg(table);
        Server::start_by(command)
    }

    /// Starts a server by bash, after a script that does what it is to find.
    pub fn start_after(script: &str, arguments: &[&str]) -> Server {
        let mut command = Command::new("/bin/bash");
        let script = format!("{script}; exec \"$@\"");
        command.args(["-c", &script, "bash", SERVE, "--listen", "127.0.0.1:0"]).args(arguments);
        Server::start_by(command)
    }

    /// A command that becomes a server.
    pub fn start_by(mut command: Command) -> Server {
        let mut child = command.stderr(Stdio::piped()).spawn().expect("a start");
        let mut stderr = BufReader::new(child.stderr.take().expect("an error output"));
        let mut told = String::new();
        let address = loop {
            let mut line = String::new();
            assert!(stderr.read_line(&mut line).expect("text") > 0, "no address:\n{told}");
            if let Some(address) = line.trim_end().strip_prefix("serve: listening on ") {
                break address.parse().expect("an address");
            }
            told += &line;
        };
        Server { child, stderr, address }
    }

    pub fn connect(&self) -> Client {
        let client = self.connect_raw();
        let mut client = Client { input: BufReader::new(client) };
        let greeting = client.line();
        assert!(greeting.starts_with(b"* PREAUTH "), "{}", text(&greeting));
        client
    }

    pub fn connect_raw(&self) -> TcpStream {
        let stream = TcpStream::connect(self.address).expect("a connection");
        stream.set_read_timeout(Some(PATIENCE)).expect("a socket");
        stream.set_nodelay(true).expect("a socket");
        stream
    }

    /// The number of a line of /proc, in kilobytes: `VmHWM` is the most memory so far, `VmRSS` that of now.
    pub fn memory(&self, name: &str) -> u64 {
        let status = fs::read_to_string(format!("/proc/{}/status", self.child.id()));
        let status = status.expect("a process");
        let line = status.lines().find_map(|line| line.strip_prefix(name)).expect("a line");
        line.trim_matches(|byte: char| !byte.is_ascii_digit()).parse().expect("a number")
    }

    /// How many threads there are.
    pub fn threads(&self) -> usize {
        fs::read_dir(format!("/proc/{}/task", self.child.id())).expect("a process").count()
    }

    /// The number of its process.
    pub fn id(&self) -> u32 {
        self.child.id()
    }

    /// The next line that it tells; none at its end.
    pub fn told_line(&mut self) -> String {
        let mut line = String::new();
        self.stderr.read_line(&mut line).expect("text");
        line
    }

    /// Sends a signal, and waits for the end: the status, and what it told.
    pub fn end_by(mut self, signal: &str) -> (Option<i32>, String) {
        signal_to(self.id(), signal);
        let mut told = String::new();
        self.stderr.read_to_string(&mut told).expect("text");
        (self.child.wait().expect("an end").code(), told)
    }

    /// As a power cut does to it; then what it told.
    pub fn kill(mut self) -> String {
        self.child.kill().expect("a process");
        let mut told = String::new();
        self.stderr.read_to_string(&mut told).expect("text");
        told
    }
}

pub fn signal_to(process: u32, signal: &str) {
    let sent = Command::new("kill").args([signal, &process.to_string()]).status();
    assert!(sent.expect("kill").success());
}

impl Drop for Server {
    fn drop(&mut self) {
        let _ = self.child.kill();
        let _ = self.child.wait();
    }
}

pub struct Client {
    input: BufReader<TcpStream>,
}

impl Client {
    pub fn send(&mut self, bytes: &[u8]) -> io::Result<()> {
        self.input.get_mut().write_all(bytes)
    }

    pub fn line(&mut self) -> Vec<u8> {
        let mut line = Vec::new();
        self.input.read_until(b'\n', &mut line).expect("a line");
        line
    }

    /// All lines of the answer to a command without literals, through the tagged one.
    pub fn command(&mut self, command: &[u8]) -> Vec<Vec<u8>> {
        self.send(command).expect("a connection");
        let tag = command.split_inclusive(|&byte| byte == b' ').next().expect("a tag");
        let mut lines = Vec::new();
        loop {
            let line = self.line();
            assert!(!line.is_empty(), "closed after {:?}", text(command));
            let is_last = line.starts_with(tag);
            lines.push(line);
            if is_last {
                return lines;
            }
        }
    }

    /// So many bytes.
    pub fn bytes(&mut self, length: usize) -> Vec<u8> {
        let mut bytes = vec![0; length];
        self.input.read_exact(&mut bytes).expect("bytes");
        bytes
    }

    /// What comes before the server closes.
    pub fn rest(mut self) -> Vec<u8> {
        let mut rest = Vec::new();
        self.input.read_to_end(&mut rest).expect("an end");
        rest
    }
}
