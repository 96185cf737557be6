//! The words of a call.

use std::env;
use std::ffi::OsString;
use std::net::{SocketAddr, TcpListener};
use std::path::PathBuf;
use std::str::FromStr;
use std::time::Duration;

use luspemaro::Reader;
use serve::{handed_over, Limits};

const USAGE: &str =
    "usage: serve [--reader N] [--accept-login] [--review FILE] [--record FILE] [--log FILE] \
                     [--listen ADDRESS:PORT [--any-address] [--connections N] [--idle SECONDS]] TABLE";
/// So many threads are more than any account needs.
const MOST_CONNECTIONS: usize = 10_000;
const LONGEST_IDLE: u64 = 86_400;

/// What is to be served, and how.
pub struct Call {
    pub table: PathBuf,
    pub reader: Reader,
    pub accepts_login: bool,
    pub review: Option<PathBuf>,
    /// A name that may hold the date.
    pub record: Option<String>,
    pub log: Option<PathBuf>,
    /// None is standard input and output.
    pub listening: Option<Listening>,
}

/// A socket.
pub struct Listening {
    pub place: ListenAt,
    pub limits: Limits,
}

/// Where connections come from.
pub enum ListenAt {
    Address(SocketAddr),
    /// Opened by another process.
    HandedOver(TcpListener),
}

/// The words so far.
#[derive(Default)]
struct Words {
    table: Option<PathBuf>,
    reader: Option<Reader>,
    accepts_login: bool,
    review: Option<PathBuf>,
    record: Option<String>,
    log: Option<PathBuf>,
    address: Option<SocketAddr>,
    connections: Option<usize>,
    idle: Option<u64>,
    any_address: bool,
}

impl Call {
    /// The call of this process, or what is wrong with it.
    pub fn read() -> Result<Call, String> {
        Words::read(env::args_os().skip(1))?.call(handed_over()?)
    }
}

impl Words {
    fn read(mut arguments: impl Iterator<Item = OsString>) -> Result<Words, String> {
        let mut words = Words::default();
        while let Some(argument) = arguments.next() {
            let mut value = |what: &str| {
                arguments.next().ok_or_else(|| format!("{} takes {what}", argument.display()))
            };
            match argument.to_str() {
                Some("--reader") => {
                    let what = "a reader, 0 to 7";
                    let number = number(value(what)?, "--reader", what, 0..=Reader::MAX)?;
                    words.reader = Reader::new(number);
                }
                Some("--review") => words.review = Some(value("a file")?.into()),
                Some("--record") => words.record = Some(name(value("a file")?, "--record")?),
                Some("--log") => words.log = Some(value("a file")?.into()),
                Some("--accept-login") => words.accepts_login = true,
                Some("--listen") => {
                    let what = "an address and a port, as 127.0.0.1:1143";
                    words.address = Some(parsed(value(what)?, "--listen", what)?);
                }
                Some("--any-address") => words.any_address = true,
                Some("--connections") => {
                    let what = "a number, 1 to 10000";
                    let range = 1..=MOST_CONNECTIONS;
                    words.connections = Some(number(value(what)?, "--connections", what, range)?);
                }
                Some("--idle") => {
                    let what = "seconds, 1 to 86400";
                    words.idle = Some(number(value(what)?, "--idle", what, 1..=LONGEST_IDLE)?);
                }
                Some(unknown) if unknown.starts_with("--") => {
                    return Err(format!("unknown option {unknown}\n{USAGE}"));
                }
                _ if words.table.is_none() => words.table = Some(argument.into()),
                _ => return Err(format!("one table at a time\n{USAGE}")),
            }
        }
        Ok(words)
    }

    /// The call, with the socket that is handed over, if there is one.
    fn call(self, handed: Option<TcpListener>) -> Result<Call, String> {
        let limits = self.limits();
        let listening = self.place(handed)?.map(|place| Listening { place, limits });
        let limited = self.any_address || self.connections.is_some() || self.idle.is_some();
        if listening.is_none() && limited {
            return Err("--any-address, --connections and --idle go with --listen".to_string());
        }
        Ok(Call {
            table: self.table.ok_or(USAGE)?,
            reader: self.reader.unwrap_or(Reader::EDITOR),
            accepts_login: self.accepts_login,
            review: self.review,
            record: self.record,
            log: self.log,
            listening,
        })
    }

    fn limits(&self) -> Limits {
        let usual = Limits::default();
        Limits {
            connections: self.connections.unwrap_or(usual.connections),
            idle: self.idle.map_or(usual.idle, Duration::from_secs),
        }
    }

    /// The socket, which is of this machine alone unless any address is allowed.
    fn place(&self, handed: Option<TcpListener>) -> Result<Option<ListenAt>, String> {
        let place = match (self.address, handed) {
            (Some(_), Some(_)) => {
                return Err(
                    "a socket is handed over (LISTEN_FDS), so --listen names none".to_string()
                );
            }
            (Some(address), None) => ListenAt::Address(address),
            (None, Some(listener)) => ListenAt::HandedOver(listener),
            (None, None) => return Ok(None),
        };
        let address = match &place {
            ListenAt::Address(address) => *address,
            ListenAt::HandedOver(listener) => listener
                .local_addr()
                .map_err(|error| format!("the socket of LISTEN_FDS is none of TCP: {error}"))?,
        };
        if !self.any_address && !address.ip().is_loopback() {
            return Err(
                "there is no login, so only this machine is served; --any-address lifts that"
                    .to_string(),
            );
        }
        Ok(Some(place))
    }
}

fn name(word: OsString, option: &str) -> Result<String, String> {
    parsed(word, option, "a name in UTF-8")
}

fn parsed<T: FromStr>(word: OsString, option: &str, what: &str) -> Result<T, String> {
    let value = word.to_str().and_then(|word| word.parse().ok());
    value.ok_or_else(|| format!("{option} takes {what}"))
}

fn number<T: FromStr + PartialOrd>(
    word: OsString,
    option: &str,
    what: &str,
    range: std::ops::RangeInclusive<T>,
) -> Result<T, String> {
    let number = parsed(word, option, what)?;
    range.contains(&number).then_some(number).ok_or_else(|| format!("{option} takes {what}"))
}
