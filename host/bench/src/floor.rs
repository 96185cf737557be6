//! The floor: reading the table once and copying the answer.

use std::hint::black_box;
use std::ptr;

/// One load for each byte of the table, one load and one store for each byte of the answer.
pub fn byte_by_byte(table: &[u8], answer: &[u8], out: &mut [u8]) {
    let mut sum = 0u8;
    for byte in table {
        // A volatile load is one load, not a part of a wider one. It reads a byte of the slice.
        sum = sum.wrapping_add(unsafe { ptr::from_ref(byte).read_volatile() });
    }
    black_box(sum);
    for (to, from) in out.iter_mut().zip(answer) {
        // The same for the store.
        unsafe { ptr::from_mut(to).write_volatile(*from) };
    }
}

/// The same with the widest loads and stores that the compiler and the C library have.
pub fn by_blocks(table: &[u8], answer: &[u8], out: &mut [u8]) {
    black_box(table.iter().fold(0u8, |sum, &byte| sum.wrapping_add(byte)));
    out.copy_from_slice(answer);
}
