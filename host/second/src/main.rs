//! The second program: frames on standard input, answers on standard output.

use std::process::ExitCode;

fn main() -> ExitCode {
    second::frames::main()
}
