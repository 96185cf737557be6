//! Sizes of buffers, in bytes: those of the program of frames, and those of `include/luspemaro.h` with which 9, 10 and 11
//! are never given.

/// What the program keeps of packed rows, and of entries: "the stored bytes (16,384 and 1,024 …)".
pub const PROGRAM_TABLE: usize = 16_384;
pub const PROGRAM_NAMESPACES: usize = 1_024;
/// The names that the program keeps from the first accepted edit on.
pub const PROGRAM_AREA: usize = 16_384;
/// The answer of the program to a command: "Buffers: answer and scratch 16,384, found and pending 8,192 each."
pub const PROGRAM_ANSWER: usize = 16_384;

/// `LUSPEMARO_ROOM_ANSWER`: no answer is longer.
pub const ROOM_ANSWER: usize = 1_572_864;
/// `LUSPEMARO_ROOM_SCRATCH`: no answer to a command of a walk is longer.
pub const ROOM_SCRATCH: usize = 147_456;
/// `LUSPEMARO_ROOM_FOUND`: no walk finds more.
pub const ROOM_FOUND: usize = 33_280;
/// `LUSPEMARO_ROOM_PENDING`: no walk has more names to ask below.
pub const ROOM_PENDING: usize = 491_520;
