//! Connections of a socket: a thread for each, of a stated stack; limits of their number and of the time
//! without a whole command; and the end of them all.

use std::io::{self, ErrorKind, Read, Write};
use std::net::{Shutdown, TcpListener, TcpStream};
use std::os::fd::AsFd;
use std::sync::{Arc, Condvar, Mutex, PoisonError};
use std::thread;
use std::time::{Duration, Instant};

use luspemaro::Reader;

use crate::account::Account;
use crate::connection::converse;
use crate::decided::Client;
use crate::keeping::tell;
use crate::log::Peer;
use crate::rooms::THREAD_STACK;
use crate::stop::{Stop, Woken, END_WAIT};
use crate::words::farewell;

/// How many connections there are at once, and how long one may go without a whole command.
#[derive(Clone, Copy, Debug)]
pub struct Limits {
    pub connections: usize,
    pub idle: Duration,
}

impl Default for Limits {
    /// RFC 3501 asks for 30 minutes at least.
    fn default() -> Limits {
        Limits { connections: 64, idle: Duration::from_secs(1_800) }
    }
}

/// After a connection could not be taken.
const SHORT_WHILE: Duration = Duration::from_millis(50);
/// Trouble is over once no connection was lost for so long.
const CALM: Duration = Duration::from_secs(1);
/// How long a client that was told the end may go on sending, at each of so many reads.
const LAST_WAIT: Duration = Duration::from_millis(100);
const LAST_READS: usize = 16;

/// What every connection of a socket is served with.
struct Service {
    account: Arc<Account>,
    stop: Arc<Stop>,
    reader: Reader,
    accepts_login: bool,
    limits: Limits,
    open: Arc<Open>,
}

/// The number of connections that are open.
#[derive(Default)]
struct Open {
    count: Mutex<usize>,
    changed: Condvar,
}

/// One of the connections that are open.
struct Slot(Arc<Open>);

impl Drop for Slot {
    fn drop(&mut self) {
        *self.0.count.lock().unwrap_or_else(PoisonError::into_inner) -= 1;
        self.0.changed.notify_all();
    }
}

impl Open {
    /// A place, unless so many are taken.
    fn take(open: &Arc<Open>, most: usize) -> Option<Slot> {
        let mut count = open.count.lock().unwrap_or_else(PoisonError::into_inner);
        if *count >= most {
            return None;
        }
        *count += 1;
        Some(Slot(Arc::clone(open)))
    }

    /// Waits until no connection is open, at most so long.
    fn wait_for_none(&self, most: Duration) {
        let count = self.count.lock().unwrap_or_else(PoisonError::into_inner);
        drop(self.changed.wait_timeout_while(count, most, |count| *count > 0));
    }
}

/// Connections that could not be taken or served, as too few descriptors or threads make them. It is reported
/// when it begins and when it is over, not for each connection.
#[derive(Default)]
struct Trouble {
    failures: u64,
    last: Option<Instant>,
}

impl Trouble {
    fn failed(&mut self, what: &str, error: &io::Error) {
        if self.failures == 0 {
            tell(format_args!("a connection cannot be {what}: {error}"));
        }
        self.failures += 1;
        self.last = Some(Instant::now());
    }

    fn succeeded(&mut self) {
        if self.last.is_some_and(|last| last.elapsed() >= CALM) {
            tell(format_args!("connections are served again, after {} failures", self.failures));
            *self = Trouble::default();
        }
    }
}

/// Takes connections until the server is to end, and then tells each client. What goes wrong with one is
/// reported, and concerns no other.
pub fn listen(
    listener: &TcpListener,
    account: &Arc<Account>,
    reader: Reader,
    accepts_login: bool,
    limits: Limits,
    stop: Stop,
) -> io::Result<()> {
    let (account, stop, open) = (Arc::clone(account), Arc::new(stop), Arc::default());
    let service = Arc::new(Service { account, stop, reader, accepts_login, limits, open });
    listener.set_nonblocking(true)?;
    let mut trouble = Trouble::default();
    let mut connections = 0;
    while service.stop.wait(listener.as_fd(), None)? != Woken::Stop {
        let (stream, address) = match listener.accept() {
            Ok(taken) => taken,
            Err(error) if is_passing(&error) => continue,
            Err(error) => {
                trouble.failed("taken", &error);
                service.stop.pause(SHORT_WHILE)?;
                continue;
            }
        };
        connections += 1;
        let peer = Peer { connection: connections, address: address.to_string() };
        match start(&service, stream, peer) {
            Ok(()) => trouble.succeeded(),
            Err(error) => {
                trouble.failed("served", &error);
                service.stop.pause(SHORT_WHILE)?;
            }
        }
    }
    service.open.wait_for_none(END_WAIT);
    Ok(())
}

/// Whether the connection has gone, or another call may do better.
fn is_passing(error: &io::Error) -> bool {
    use ErrorKind::{ConnectionAborted, Interrupted, WouldBlock};
    matches!(error.kind(), ConnectionAborted | Interrupted | WouldBlock)
}

/// Serves a connection in a thread of its own, or turns it away.
fn start(service: &Arc<Service>, stream: TcpStream, peer: Peer) -> io::Result<()> {
    let Some(place) = Open::take(&service.open, service.limits.connections) else {
        turn_away(service, stream, &peer);
        return Ok(());
    };
    let service = Arc::clone(service);
    let serve = move || {
        // A client that goes away, or takes no answer, is nothing to be told.
        let _ = serve_stream(&stream, &service, peer);
        drop(place);
    };
    thread::Builder::new().stack_size(THREAD_STACK).spawn(serve).map(drop)
}

fn serve_stream(mut stream: &TcpStream, service: &Service, peer: Peer) -> io::Result<()> {
    let idle = service.limits.idle;
    let Service { reader, accepts_login, .. } = *service;
    let client = Client { peer, reader, accepts_login, idle: Some(idle) };
    stream.set_nonblocking(false)?;
    stream.set_nodelay(true)?;
    stream.set_write_timeout(Some(idle))?;
    let (mut input, socket) = (stream, stream);
    let wait = |most| service.stop.wait(socket.as_fd(), most);
    converse(&service.account, &client, &mut input, &mut stream, wait)?;
    close(stream)
}

/// Ends a connection so that the client can read the last line: what it still sends is taken for a
/// short while, since closing with bytes unread would take the line back.
fn close(mut stream: &TcpStream) -> io::Result<()> {
    stream.shutdown(Shutdown::Write)?;
    stream.set_read_timeout(Some(LAST_WAIT))?;
    let mut chunk = [0; 4_096];
    for _ in 0..LAST_READS {
        if stream.read(&mut chunk)? == 0 {
            break;
        }
    }
    Ok(())
}

/// Tells a client that there are too many. The line fits any socket's buffer.
fn turn_away(service: &Service, mut stream: TcpStream, peer: &Peer) {
    const WHY: &str = "too many connections, try again later";
    // A log that takes nothing is reported already; this client is served nothing in any case.
    let _ = service.account.note(Some(peer), format_args!("server BYE: {WHY}"));
    let told = stream.write_all(&farewell(WHY));
    let _ = told.and_then(|()| stream.shutdown(Shutdown::Write));
}
