//! A log in pieces of a fixed size, so that no more of it is held than that.

use std::io::{self, Read};

use formats::sha256::{Sum, Summing};

/// The size of the buffer.
const PIECE: usize = 1 << 16;

/// Bytes that are read as they are wanted.
pub struct Pieces<R> {
    input: R,
    buffer: Box<[u8]>,
    /// What was read and not taken.
    start: usize,
    end: usize,
    has_ended: bool,
    taken: u64,
    /// Of what was taken, if it is wanted.
    sum: Option<Summing>,
}

impl<R: Read> Pieces<R> {
    pub fn new(input: R, has_sum: bool) -> Pieces<R> {
        let buffer = vec![0; PIECE].into_boxed_slice();
        let sum = has_sum.then(Summing::default);
        Pieces { input, buffer, start: 0, end: 0, has_ended: false, taken: 0, sum }
    }

    /// What comes next: so many bytes, or more, or fewer at the end. At most `PIECE` can be asked for.
    pub fn peek(&mut self, least: usize) -> io::Result<&[u8]> {
        if self.end - self.start < least && !self.has_ended {
            self.buffer.copy_within(self.start..self.end, 0);
            (self.start, self.end) = (0, self.end - self.start);
            while self.end < least.min(PIECE) && !self.has_ended {
                match self.input.read(&mut self.buffer[self.end..]) {
                    Ok(0) => self.has_ended = true,
                    Ok(count) => self.end += count,
                    Err(error) if error.kind() == io::ErrorKind::Interrupted => {}
                    Err(error) => return Err(error),
                }
            }
        }
        Ok(&self.buffer[self.start..self.end])
    }

    /// Takes bytes that were peeked at.
    pub fn take(&mut self, count: usize) {
        let taken = &self.buffer[self.start..self.start + count];
        if let Some(sum) = &mut self.sum {
            sum.add(taken);
        }
        self.start += count;
        self.taken += count as u64;
    }

    /// Whether a sum is wanted, which is one of all bytes.
    pub fn has_sum(&self) -> bool {
        self.sum.is_some()
    }

    /// How many bytes were taken.
    pub fn taken(&self) -> u64 {
        self.taken
    }

    /// The sum of what was taken, if it was wanted.
    pub fn sum(self) -> Option<Sum> {
        self.sum.map(Summing::finished)
    }
}

#[cfg(test)]
mod tests {
    use crate::pieces::*;
    use formats::sha256::sum_of_bytes;

    /// Gives few bytes at a time, and is interrupted.
    struct Slow<'b>(&'b [u8], bool);

    impl Read for Slow<'_> {
        fn read(&mut self, buffer: &mut [u8]) -> io::Result<usize> {
            self.1 = !self.1;
            if self.1 {
                return Err(io::ErrorKind::Interrupted.into());
            }
            let count = self.0.len().min(7).min(buffer.len());
            buffer[..count].copy_from_slice(&self.0[..count]);
            self.0 = &self.0[count..];
            Ok(count)
        }
    }

    #[test]
    fn every_byte_once() {
        let bytes: Vec<u8> = (0..200_000_u32).map(|number| number as u8).collect();
        let mut pieces = Pieces::new(Slow(&bytes, false), true);
        let mut seen = Vec::new();
        for turn in 0.. {
            let piece = pieces.peek(1 + turn % 500).expect("bytes");
            let count = piece.len().min(1 + turn % 300);
            seen.extend_from_slice(&piece[..count]);
            if count == 0 {
                break;
            }
            pieces.take(count);
        }
        assert!(seen == bytes);
        assert_eq!((pieces.taken(), pieces.sum()), (200_000, Some(sum_of_bytes(&bytes))));
    }

    #[test]
    fn an_error_is_one() {
        struct Fails;
        impl Read for Fails {
            fn read(&mut self, _: &mut [u8]) -> io::Result<usize> {
                Err(io::Error::other("gone"))
            }
        }
        assert!(Pieces::new(Fails, false).peek(1).is_err());
    }
}
