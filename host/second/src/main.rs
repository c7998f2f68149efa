//! Reads a turn file on standard input and prints one line a record.
#![forbid(unsafe_code)]

use std::io::ErrorKind;
use std::process::ExitCode;

fn main() -> ExitCode {
    match second::run_standard() {
        Ok(()) => ExitCode::SUCCESS,
        // Nobody reads on: stop quietly.
        Err(error) if error.kind() == ErrorKind::BrokenPipe => ExitCode::SUCCESS,
        Err(error) => {
            eprintln!("second: cannot write: {error}");
            ExitCode::FAILURE
        }
    }
}
