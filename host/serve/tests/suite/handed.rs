//! A socket that another process has opened, as systemd hands it over.

use std::net::{TcpListener, UdpSocket};
use std::os::fd::OwnedFd;
use std::process::{Command, Stdio};

use crate::common::{session_file, text, Server, SERVE};

/// A server that finds this socket as descriptor 3, and so many of them in the environment.
fn started(socket: impl Into<OwnedFd>, settings: &str) -> Command {
    let mut command = Command::new("/bin/bash");
    let script = format!("exec 3<&0 </dev/null; export {settings}; exec \"$@\"");
    command.args(["-c", &script, "bash", SERVE]);
    command.stdin(Stdio::from(socket.into()));
    command
}

fn listener(address: &str) -> TcpListener {
    TcpListener::bind(address).expect("a socket")
}

#[test]
fn a_socket_is_served() {
    let socket = listener("127.0.0.1:0");
    let address = socket.local_addr().expect("an address");
    let mut command = started(socket, "LISTEN_PID=$$ LISTEN_FDS=1");
    command.args(["--connections", "2", "--idle", "60"]).arg(session_file());
    let server = Server::start_by(command);
    assert_eq!(server.address, address);
    let mut client = server.connect();
    assert_eq!(client.command(b"a NOOP\r\n"), [b"a OK done\r\n"]);
    assert_eq!(server.end_by("-TERM").0, Some(0));
    assert_eq!(text(&client.rest()), "* BYE the server ends\r\n");
}

/// Anything but one socket of this machine that listens is an error; what another process is handed is not taken.
#[test]
fn other_sockets() {
    let udp = || OwnedFd::from(UdpSocket::bind("127.0.0.1:0").expect("a socket"));
    let file = || OwnedFd::from(std::fs::File::open("/dev/null").expect("a file"));
    let tcp = |address: &str| OwnedFd::from(listener(address));
    let own = "LISTEN_PID=$$ LISTEN_FDS=1";
    let cases: [(OwnedFd, &str, &[&str], &str); 6] = [
        (
            tcp("127.0.0.1:0"),
            "LISTEN_PID=$$ LISTEN_FDS=2",
            &[],
            "one socket is served, and 2 are handed",
        ),
        (tcp("127.0.0.1:0"), "LISTEN_PID=$$", &[], "one socket is served, and none are handed"),
        (tcp("127.0.0.1:0"), own, &["--listen", "127.0.0.1:0"], "--listen names none"),
        (tcp("0.0.0.0:0"), own, &[], "only this machine is served"),
        (udp(), own, &[], "the socket of LISTEN_FDS: it is no stream socket that listens"),
        (file(), own, &[], "the socket of LISTEN_FDS: "),
    ];
    for (socket, settings, words, message) in cases {
        let output = started(socket, settings).args(words).arg(session_file()).output();
        let output = output.expect("a run");
        let told = text(&output.stderr);
        assert_eq!(output.status.code(), Some(2), "{told}");
        assert!(told.contains(message) && output.stdout.is_empty(), "{told}");
    }
    // The tunnel, whose input is at its end.
    let mut command = started(tcp("127.0.0.1:0"), "LISTEN_PID=1 LISTEN_FDS=1");
    let output = command.arg(session_file()).output().expect("a run");
    assert_eq!(output.status.code(), Some(0));
    assert!(text(&output.stdout).starts_with("* PREAUTH "));
}
