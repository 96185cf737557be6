//! Calls of the system that the standard library does not offer: waiting for one of two descriptors,
//! SIGTERM and SIGINT as a descriptor, and a socket that another process has opened.
//!
//! The functions are those of the C library, which the standard library links on Linux. This is the one
//! file of the crate with unsafe code.
#![allow(unsafe_code)]

use std::ffi::{c_int, c_short, c_uint, c_ulong, c_void};
use std::io::{self, ErrorKind};
use std::net::TcpListener;
use std::os::fd::{AsRawFd, BorrowedFd, FromRawFd, OwnedFd, RawFd};
use std::ptr;
use std::time::Duration;

const POLLIN: c_short = 1;
const SIGINT: c_int = 2;
const SIGTERM: c_int = 15;
const SIG_BLOCK: c_int = 0;
const SFD_CLOEXEC: c_int = 0o2_000_000;
const SOL_SOCKET: c_int = 1;
const SO_ACCEPTCONN: c_int = 30;

#[repr(C)]
struct PollDescriptor {
    descriptor: c_int,
    events: c_short,
    returned: c_short,
}

/// `sigset_t`: 1,024 bits.
#[repr(C)]
struct SignalSet([c_ulong; 16]);

extern "C" {
    fn poll(descriptors: *mut PollDescriptor, count: c_ulong, milliseconds: c_int) -> c_int;
    fn sigemptyset(set: *mut SignalSet) -> c_int;
    fn sigaddset(set: *mut SignalSet, signal: c_int) -> c_int;
    fn pthread_sigmask(how: c_int, set: *const SignalSet, old: *mut SignalSet) -> c_int;
    fn signalfd(descriptor: c_int, set: *const SignalSet, flags: c_int) -> c_int;
    fn getsockopt(
        socket: c_int,
        level: c_int,
        name: c_int,
        value: *mut c_void,
        length: *mut c_uint,
    ) -> c_int;
}

/// Which of two descriptors can be read or has ended, once one of them can or the time has passed.
/// A signal that interrupts the call counts as the end of the time.
pub fn readable(waited: [BorrowedFd; 2], most: Option<Duration>) -> io::Result<[bool; 2]> {
    let asked = |waited: BorrowedFd| PollDescriptor {
        descriptor: waited.as_raw_fd(),
        events: POLLIN,
        returned: 0,
    };
    let mut descriptors = waited.map(asked);
    // Part of a millisecond is waited as a whole one, so that no caller turns in a loop before its time.
    let milliseconds = most
        .map_or(-1, |most| c_int::try_from(most.as_micros().div_ceil(1_000)).unwrap_or(c_int::MAX));
    // SAFETY: the array has two elements and lives through the call.
    let found = unsafe { poll(descriptors.as_mut_ptr(), 2, milliseconds) };
    if found < 0 {
        let error = io::Error::last_os_error();
        return if error.kind() == ErrorKind::Interrupted { Ok([false; 2]) } else { Err(error) };
    }
    Ok(descriptors.map(|descriptor| descriptor.returned != 0))
}

/// A descriptor that can be read from the first SIGTERM or SIGINT on. The signals do nothing else any
/// more, in this thread and in those that it starts.
pub fn end_signals() -> io::Result<OwnedFd> {
    let mut set = SignalSet([0; 16]);
    // SAFETY: the set has the size of `sigset_t` and lives through the calls; no old mask is asked for;
    // the descriptor that is returned is new and owned by no one else.
    unsafe {
        sigemptyset(&mut set);
        sigaddset(&mut set, SIGTERM);
        sigaddset(&mut set, SIGINT);
        let error = pthread_sigmask(SIG_BLOCK, &set, ptr::null_mut());
        if error != 0 {
            return Err(io::Error::from_raw_os_error(error));
        }
        match signalfd(-1, &set, SFD_CLOEXEC) {
            -1 => Err(io::Error::last_os_error()),
            descriptor => Ok(OwnedFd::from_raw_fd(descriptor)),
        }
    }
}

/// Takes over the descriptor of a socket that another process has opened and listens on. One that is
/// no socket, or does not listen, is an error. It is called once for a descriptor.
pub fn handed_listener(descriptor: RawFd) -> io::Result<TcpListener> {
    let mut is_listening: c_int = 0;
    let mut length = size_of::<c_int>() as c_uint;
    let value: *mut c_int = &mut is_listening;
    // SAFETY: the value and its length live through the call, and the length is the value's size.
    let asked =
        unsafe { getsockopt(descriptor, SOL_SOCKET, SO_ACCEPTCONN, value.cast(), &mut length) };
    if asked != 0 {
        return Err(io::Error::last_os_error());
    }
    if is_listening == 0 {
        return Err(io::Error::other("it is no stream socket that listens"));
    }
    // SAFETY: the descriptor is open, as the call above has found, and the environment says that it was
    // handed to this process, in which nothing else uses it.
    Ok(unsafe { TcpListener::from_raw_fd(descriptor) })
}
