//! What the tool says on standard error.

use std::fmt::Display;
use std::io::{self, Write};

/// A line of its own for each line. Where standard error cannot be written to, the status alone tells.
pub fn tell(message: impl Display) {
    for line in message.to_string().lines() {
        let _ = writeln!(io::stderr(), "replay: {line}");
    }
}
