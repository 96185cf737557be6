//! Running a program of frames: frames on its standard input, its answer lines as they come, what
//! it reports on standard error, and how it ends. Whoever runs a program runs it through here, so
//! none is waited for without end.

use std::io::{self, BufRead, BufReader, BufWriter, Read, Write};
use std::path::{Path, PathBuf};
use std::process::{Child, Command, ExitStatus, Stdio};
use std::sync::atomic::{AtomicU64, Ordering};
use std::sync::mpsc::{sync_channel, Receiver, RecvTimeoutError, SyncSender};
use std::sync::Arc;
use std::thread;
use std::time::{Duration, Instant};

use formats::frames::SentFrame;

pub mod testing;

/// How long a program may neither answer nor take any input.
pub const PATIENCE: Duration = Duration::from_secs(30);
/// Longer than any answer line; what is longer is cut and reads as a wrong answer.
const MAX_ANSWER_LINE: u64 = 65_536;
/// Answer lines read ahead.
const READ_AHEAD: usize = 64;
/// Of what a program reports no more is kept.
const MAX_REPORT: u64 = 4_096;
/// Between two looks at whether a program has ended.
const SHORT_WHILE: Duration = Duration::from_millis(5);

/// A program that is running. It is ended when this is dropped.
pub struct Running {
    child: Child,
    patience: Duration,
    lines: Receiver<Vec<u8>>,
    /// Bytes of the input that were taken so far.
    taken: Arc<AtomicU64>,
    /// How the sending ended.
    sending: Receiver<io::Result<()>>,
    report: Receiver<Vec<u8>>,
}

/// The whole path of a program, or that it cannot be found. The path is escaped in the message.
pub fn find_program(path: &Path) -> Result<PathBuf, String> {
    let shown = path.as_os_str().as_encoded_bytes().escape_ascii();
    path.canonicalize().map_err(|error| format!("cannot find {shown}: {error}"))
}

/// What sends these frames.
pub fn sender_of(frames: &[SentFrame]) -> impl FnOnce(&mut dyn Write) -> io::Result<()> {
    let input: Vec<u8> = frames.iter().flat_map(bytes_of).collect();
    move |output| output.write_all(&input)
}

fn bytes_of(frame: &SentFrame) -> Vec<u8> {
    let end: &[u8] = if frame.is_cut { b"" } else { b"\n" };
    [&frame.text, end].concat()
}

impl Running {
    /// Starts a program. `send` writes its whole input meanwhile.
    pub fn start(
        program: &Path,
        patience: Duration,
        send: impl FnOnce(&mut dyn Write) -> io::Result<()> + Send + 'static,
    ) -> io::Result<Running> {
        let mut command = Command::new(program);
        command.stdin(Stdio::piped()).stdout(Stdio::piped()).stderr(Stdio::piped());
        let mut child = command.spawn()?;
        let taken = Arc::new(AtomicU64::new(0));
        let input = child.stdin.take().map(|pipe| Counted { pipe, taken: Arc::clone(&taken) });
        let sending = in_thread(move || send_all(input, send));
        let (stdout, stderr) = (child.stdout.take(), child.stderr.take());
        let report = in_thread(move || stderr.map(read_report).unwrap_or_default());
        let (sender, lines) = sync_channel(READ_AHEAD);
        thread::spawn(move || stdout.map(|stdout| send_lines(stdout, &sender)));
        Ok(Running { child, patience, lines, taken, sending, report })
    }

    /// The next line of its output with its LF, or none if it has ended well.
    pub fn next_line(&mut self) -> io::Result<Option<Vec<u8>>> {
        loop {
            let taken = self.taken.load(Ordering::Relaxed);
            match self.lines.recv_timeout(self.patience) {
                Ok(line) => return Ok(Some(line)),
                Err(RecvTimeoutError::Disconnected) => return self.ended().map(|()| None),
                Err(RecvTimeoutError::Timeout) if self.taken.load(Ordering::Relaxed) > taken => {}
                Err(RecvTimeoutError::Timeout) => return Err(self.late()),
            }
        }
    }

    /// Checks that no line is left and that the program ends well.
    pub fn finish(mut self) -> io::Result<()> {
        match self.next_line()? {
            None => Ok(()),
            Some(_) => Err(io::Error::other("an answer too many")),
        }
    }

    /// Its output has ended. It has ended well if its status says so, if it reports nothing, and if
    /// its input was there.
    fn ended(&mut self) -> io::Result<()> {
        let status = self.status()?;
        let report = self.report.recv_timeout(self.patience).unwrap_or_default();
        if !status.success() || !report.is_empty() {
            return Err(io::Error::other(ended_text(status, &report)));
        }
        match self.sending.recv_timeout(self.patience) {
            // A program that ends early closes its input; its answers tell.
            Ok(Err(error)) if error.kind() != io::ErrorKind::BrokenPipe => Err(error),
            _ => Ok(()),
        }
    }

    fn status(&mut self) -> io::Result<ExitStatus> {
        let start = Instant::now();
        loop {
            if let Some(status) = self.child.try_wait()? {
                return Ok(status);
            }
            if start.elapsed() > self.patience {
                return Err(self.late());
            }
            thread::sleep(SHORT_WHILE);
        }
    }

    fn late(&self) -> io::Error {
        let message = format!("no answer for {} seconds", self.patience.as_secs());
        io::Error::new(io::ErrorKind::TimedOut, message)
    }
}

impl Drop for Running {
    /// A program that has ended already is past killing; there is nothing to report then.
    fn drop(&mut self) {
        let _ = self.child.kill();
        let _ = self.child.wait();
    }
}

/// A program's input that counts what is taken of it.
struct Counted<W> {
    pipe: W,
    taken: Arc<AtomicU64>,
}

impl<W: Write> Write for Counted<W> {
    fn write(&mut self, bytes: &[u8]) -> io::Result<usize> {
        let written = self.pipe.write(bytes)?;
        self.taken.fetch_add(written as u64, Ordering::Relaxed);
        Ok(written)
    }

    fn flush(&mut self) -> io::Result<()> {
        self.pipe.flush()
    }
}

/// What a function gives, once it is there.
fn in_thread<T: Send + 'static>(run: impl FnOnce() -> T + Send + 'static) -> Receiver<T> {
    let (sender, result) = sync_channel(1);
    // Nobody takes the result of a program that was ended.
    thread::spawn(move || sender.send(run()));
    result
}

fn send_all(
    input: Option<impl Write>,
    send: impl FnOnce(&mut dyn Write) -> io::Result<()>,
) -> io::Result<()> {
    let mut input = BufWriter::new(input.ok_or_else(|| io::Error::other("no pipe"))?);
    send(&mut input)?;
    input.flush()
}

/// The start of what a program reports. The rest is read too, so that the program goes on.
fn read_report(mut stderr: impl Read) -> Vec<u8> {
    let mut report = Vec::new();
    let start = stderr.by_ref().take(MAX_REPORT).read_to_end(&mut report);
    // What cannot be read is no report.
    let _ = start.and_then(|_| io::copy(&mut stderr, &mut io::sink()));
    report
}

fn ended_text(status: ExitStatus, report: &[u8]) -> String {
    let report = report.trim_ascii().escape_ascii();
    if report.clone().next().is_none() {
        return status.to_string();
    }
    let text = format!("it reports: {report}");
    if status.success() {
        text
    } else {
        format!("{status}; {text}")
    }
}

/// Sends each line until there is none, or nobody takes it.
fn send_lines(output: impl Read, lines: &SyncSender<Vec<u8>>) {
    let mut output = BufReader::new(output);
    loop {
        let mut line = Vec::new();
        let read = output.by_ref().take(MAX_ANSWER_LINE).read_until(b'\n', &mut line);
        if read.is_err() || line.is_empty() || lines.send(line).is_err() {
            return;
        }
    }
}
