//! SHA-256 (FIPS 180-4), for what a report names: files, programs and tables.

use std::io::{self, Read};

/// A sum, shown in hexadecimal as `sha256sum` does.
#[derive(Clone, Copy, Debug, PartialEq, Eq)]
pub struct Sum([u8; 32]);

impl std::fmt::Display for Sum {
    fn fmt(&self, formatter: &mut std::fmt::Formatter) -> std::fmt::Result {
        self.0.iter().try_for_each(|byte| write!(formatter, "{byte:02x}"))
    }
}

const BLOCK: usize = 64;
/// The bytes of the length at the end of the last block.
const LENGTH: usize = 8;
const READ_AT_ONCE: usize = 1 << 16;

/// The first 32 bits of the fractional parts of the square roots of the first 8 primes.
const START: [u32; 8] = [
    0x6a09e667, 0xbb67ae85, 0x3c6ef372, 0xa54ff53a, 0x510e527f, 0x9b05688c, 0x1f83d9ab, 0x5be0cd19,
];

/// The first 32 bits of the fractional parts of the cube roots of the first 64 primes.
const ROUNDS: [u32; 64] = [
    0x428a2f98, 0x71374491, 0xb5c0fbcf, 0xe9b5dba5, 0x3956c25b, 0x59f111f1, 0x923f82a4, 0xab1c5ed5,
    0xd807aa98, 0x12835b01, 0x243185be, 0x550c7dc3, 0x72be5d74, 0x80deb1fe, 0x9bdc06a7, 0xc19bf174,
    0xe49b69c1, 0xefbe4786, 0x0fc19dc6, 0x240ca1cc, 0x2de92c6f, 0x4a7484aa, 0x5cb0a9dc, 0x76f988da,
    0x983e5152, 0xa831c66d, 0xb00327c8, 0xbf597fc7, 0xc6e00bf3, 0xd5a79147, 0x06ca6351, 0x14292967,
    0x27b70a85, 0x2e1b2138, 0x4d2c6dfc, 0x53380d13, 0x650a7354, 0x766a0abb, 0x81c2c92e, 0x92722c85,
    0xa2bfe8a1, 0xa81a664b, 0xc24b8b70, 0xc76c51a3, 0xd192e819, 0xd6990624, 0xf40e3585, 0x106aa070,
    0x19a4c116, 0x1e376c08, 0x2748774c, 0x34b0bcb5, 0x391c0cb3, 0x4ed8aa4a, 0x5b9cca4f, 0x682e6ff3,
    0x748f82ee, 0x78a5636f, 0x84c87814, 0x8cc70208, 0x90befffa, 0xa4506ceb, 0xbef9a3f7, 0xc67178f2,
];

/// The sum of all that can be read.
pub fn sum_of(mut input: impl Read) -> io::Result<Sum> {
    let mut state = Summing::default();
    let mut bytes = vec![0; READ_AT_ONCE];
    loop {
        match input.read(&mut bytes) {
            Ok(0) => return Ok(state.finished()),
            Ok(count) => state.add(&bytes[..count]),
            Err(error) if error.kind() == io::ErrorKind::Interrupted => {}
            Err(error) => return Err(error),
        }
    }
}

/// The sum of bytes.
pub fn sum_of_bytes(bytes: &[u8]) -> Sum {
    let mut state = Summing::default();
    state.add(bytes);
    state.finished()
}

/// A sum under way, of what comes in pieces.
pub struct Summing {
    hash: [u32; 8],
    /// What is no whole block yet.
    partial: Vec<u8>,
    /// In bytes.
    length: u64,
}

impl Default for Summing {
    fn default() -> Summing {
        Summing { hash: START, partial: Vec::new(), length: 0 }
    }
}

impl Summing {
    pub fn add(&mut self, bytes: &[u8]) {
        self.length += bytes.len() as u64;
        self.partial.extend_from_slice(bytes);
        let whole = self.partial.len() / BLOCK * BLOCK;
        for block in self.partial[..whole].chunks_exact(BLOCK) {
            compress(&mut self.hash, block);
        }
        self.partial.drain(..whole);
    }

    /// A bit 1, bits 0, and the length in bits fill the last block.
    pub fn finished(mut self) -> Sum {
        let bits = self.length.wrapping_mul(8);
        let used = self.partial.len() + 1 + LENGTH;
        let mut end = vec![0x80];
        end.resize(1 + used.next_multiple_of(BLOCK) - used, 0);
        end.extend_from_slice(&bits.to_be_bytes());
        self.add(&end);
        let mut sum = [0; 32];
        for (bytes, word) in sum.chunks_exact_mut(4).zip(self.hash) {
            bytes.copy_from_slice(&word.to_be_bytes());
        }
        Sum(sum)
    }
}

fn compress(hash: &mut [u32; 8], block: &[u8]) {
    let mut words = [0_u32; 64];
    for (word, bytes) in words.iter_mut().zip(block.chunks_exact(4)) {
        *word = bytes.iter().fold(0, |word, &byte| word << 8 | u32::from(byte));
    }
    for at in 16..words.len() {
        let (early, late) = (words[at - 15], words[at - 2]);
        let small0 = early.rotate_right(7) ^ early.rotate_right(18) ^ early >> 3;
        let small1 = late.rotate_right(17) ^ late.rotate_right(19) ^ late >> 10;
        let sum = words[at - 16].wrapping_add(small0).wrapping_add(words[at - 7]);
        words[at] = sum.wrapping_add(small1);
    }
    let [mut a, mut b, mut c, mut d, mut e, mut f, mut g, mut h] = *hash;
    for (word, round) in words.into_iter().zip(ROUNDS) {
        let large1 = e.rotate_right(6) ^ e.rotate_right(11) ^ e.rotate_right(25);
        let choice = e & f ^ !e & g;
        let one = h.wrapping_add(large1).wrapping_add(choice);
        let one = one.wrapping_add(round).wrapping_add(word);
        let large0 = a.rotate_right(2) ^ a.rotate_right(13) ^ a.rotate_right(22);
        let two = large0.wrapping_add(a & b ^ a & c ^ b & c);
        (h, g, f, e) = (g, f, e, d.wrapping_add(one));
        (d, c, b, a) = (c, b, a, one.wrapping_add(two));
    }
    for (word, added) in hash.iter_mut().zip([a, b, c, d, e, f, g, h]) {
        *word = word.wrapping_add(added);
    }
}
