//! Waiting: for input, for the time to pass, or for the end of the server, which SIGTERM and SIGINT ask for.

use std::io;
use std::os::fd::{AsFd, BorrowedFd, OwnedFd};
use std::time::Duration;

use crate::system::{end_signals, readable};

/// How long the end of the server waits for clients that take nothing.
pub const END_WAIT: Duration = Duration::from_secs(5);

/// Why waiting has ended.
#[derive(Clone, Copy, Debug, PartialEq, Eq)]
pub enum Woken {
    /// There is input, or its end.
    Input,
    /// The time has passed.
    Time,
    /// The server is to end.
    Stop,
}

/// The end of the server. It is asked for by SIGTERM or SIGINT, once for all threads.
pub struct Stop {
    signals: OwnedFd,
}

impl Stop {
    /// From here on the two signals ask for the end, in threads that are started later too.
    pub fn on_signals() -> io::Result<Stop> {
        Ok(Stop { signals: end_signals()? })
    }

    /// Waits for input, for the end of the server, or until the time has passed. The end goes first, so
    /// that a client that never pauses does not put it off.
    pub fn wait(&self, input: BorrowedFd, most: Option<Duration>) -> io::Result<Woken> {
        let [has_input, is_asked] = readable([input, self.signals.as_fd()], most)?;
        Ok(match (is_asked, has_input) {
            (true, _) => Woken::Stop,
            (false, true) => Woken::Input,
            (false, false) => Woken::Time,
        })
    }

    /// Waits for the end of the server alone, at most so long.
    pub fn pause(&self, most: Duration) -> io::Result<()> {
        readable([self.signals.as_fd(); 2], Some(most)).map(drop)
    }
}
