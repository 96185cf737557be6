//! The tests of walks with larger buffers, over the proved library.

mod given;
mod sessions;
