//! Prints a traced hall, and draws how its sound decays.
#![forbid(unsafe_code)]

use std::error::Error;
use std::ffi::OsString;
use std::fs;
use std::io::{self, ErrorKind, Write};
use std::process::ExitCode;

use hall::{decay_curve, help, report, trace, Arguments};

fn main() -> ExitCode {
    let words: Vec<OsString> = std::env::args_os().skip(1).collect();
    if words.iter().any(|word| word == "--help") {
        return print(&help());
    }
    let arguments = match Arguments::parse(&words) {
        Some(arguments) => arguments,
        None => {
            eprint!("{}", help());
            return ExitCode::from(2);
        }
    };
    match run(&arguments) {
        Ok(text) => print(&text),
        Err(error) => {
            eprintln!("hall: {error}");
            ExitCode::FAILURE
        }
    }
}

/// A shape outside its limits is refused here, where the field can be named.
fn run(arguments: &Arguments) -> Result<String, Box<dyn Error>> {
    let job = arguments.job();
    job.shape.check()?;
    let trace = trace(&job)?;
    if let Some(path) = &arguments.curve {
        fs::write(path, decay_curve(&trace))
            .map_err(|error| format!("cannot write {}: {error}", path.display()))?;
    }
    Ok(report(job.shape, &trace))
}

/// Nobody reading on is no failure.
fn print(text: &str) -> ExitCode {
    match io::stdout().write_all(text.as_bytes()) {
        Err(error) if error.kind() != ErrorKind::BrokenPipe => {
            eprintln!("hall: cannot write: {error}");
            ExitCode::FAILURE
        }
        _ => ExitCode::SUCCESS,
    }
}
