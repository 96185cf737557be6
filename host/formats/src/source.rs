//! Where a session comes from: a file, or a stream, read once and whole.
//!
//! A session is gone through several times: to check every line of it before anything is run, to sum
//! it up, to send it and to print it. All of them see the bytes that were read at first, so what is
//! summed up is what is sent and printed, whatever becomes of the file meanwhile.

use std::fs::File;
use std::io::{self, BufRead, Cursor, Read};
use std::path::Path;
use std::sync::Arc;

/// A session is held in memory and has at most this number of bytes.
const MOST_BYTES: u64 = 1 << 30;

/// A session's bytes, to be read from the start as often as they are wanted.
#[derive(Clone, Debug)]
pub struct Source(Arc<Vec<u8>>);

impl AsRef<[u8]> for Source {
    fn as_ref(&self) -> &[u8] {
        &self.0
    }
}

impl Source {
    pub fn of_path(path: &Path) -> io::Result<Source> {
        Source::of_stream(File::open(path)?)
    }

    pub fn of_stream(stream: impl Read) -> io::Result<Source> {
        let mut bytes = Vec::new();
        stream.take(MOST_BYTES + 1).read_to_end(&mut bytes)?;
        if bytes.len() as u64 > MOST_BYTES {
            let message = format!("a session has at most {} MB", MOST_BYTES >> 20);
            return Err(io::Error::new(io::ErrorKind::FileTooLarge, message));
        }
        Ok(Source(Arc::new(bytes)))
    }

    pub fn of_bytes(bytes: &[u8]) -> Source {
        Source(Arc::new(bytes.to_vec()))
    }

    /// The bytes from the start.
    pub fn open(&self) -> Cursor<Source> {
        Cursor::new(self.clone())
    }
}

/// One line, without its LF.
pub struct SourceLine {
    /// The line, or the start of a longer one.
    pub text: Vec<u8>,
    pub length: u64,
    /// The end of the input came before a LF.
    pub is_cut: bool,
}

impl SourceLine {
    /// Whether `text` is the start alone.
    pub fn is_overlong(&self) -> bool {
        self.length > self.text.len() as u64
    }
}

/// The next line, of which at most `most` bytes are kept, or none at the end.
pub fn next_line(input: &mut impl BufRead, most: usize) -> io::Result<Option<SourceLine>> {
    let mut line = SourceLine { text: Vec::new(), length: 0, is_cut: true };
    loop {
        let block = input.fill_buf()?;
        if block.is_empty() {
            return Ok((line.length > 0).then_some(line));
        }
        let lf = block.iter().position(|&byte| byte == b'\n');
        let part = &block[..lf.unwrap_or(block.len())];
        let kept = part.len().min(most - line.text.len());
        line.text.extend_from_slice(&part[..kept]);
        line.length += part.len() as u64;
        line.is_cut = lf.is_none();
        let read = part.len() + usize::from(lf.is_some());
        input.consume(read);
        if !line.is_cut {
            return Ok(Some(line));
        }
    }
}
