//! A socket that is handed over in the environment, as systemd does: LISTEN_PID names this process,
//! LISTEN_FDS is 1, and the socket is descriptor 3.

use std::env;
use std::net::TcpListener;
use std::process;

use crate::system::handed_listener;

/// The descriptor of the first socket, by systemd's convention.
const FIRST: i32 = 3;

/// The socket that this process is handed; none if there is none; or what is wrong with it. It is called once.
pub fn handed_over() -> Result<Option<TcpListener>, String> {
    let number = |name: &str| env::var(name).ok().and_then(|text| text.parse::<u32>().ok());
    if number("LISTEN_PID") != Some(process::id()) {
        return Ok(None);
    }
    let sockets = number("LISTEN_FDS");
    if sockets != Some(1) {
        let told = sockets.map_or("none".to_string(), |count| count.to_string());
        return Err(format!("LISTEN_FDS: one socket is served, and {told} are handed over"));
    }
    handed_listener(FIRST).map(Some).map_err(|error| format!("the socket of LISTEN_FDS: {error}"))
}
