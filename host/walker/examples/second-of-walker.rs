//! The second program, built with the tests of this crate, which run it.

use std::process::ExitCode;

fn main() -> ExitCode {
    second::frames::main()
}
