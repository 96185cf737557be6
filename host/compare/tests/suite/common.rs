//! The program that is compared with itself.

use std::path::PathBuf;

use child::testing::example;

/// The second program.
pub fn second() -> PathBuf {
    example("second-of-compare")
}
