//! The command `tunebriar`; everything is in the library beside it.

use std::process::ExitCode;

fn main() -> ExitCode {
    command::main(std::env::args_os())
}
