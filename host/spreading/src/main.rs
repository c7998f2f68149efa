//! Looks for a table of energies in files.
#![forbid(unsafe_code)]

use std::fs;
use std::process::ExitCode;

use spreading::table::Pieces;

const HELP: &str = "\
usage: energy_table FILE..

Looks for stored energies in files: those of consecutive distances at equal steps of
up to 16 bytes, as words of 16, 32 or 64 bits, in either order, from any byte on.
Ends with status 0 if no file has any, with 1 at the first that has, with 2 without
a file or at one that cannot be read.
";

fn main() -> ExitCode {
    let files: Vec<String> = std::env::args().skip(1).collect();
    if files.iter().any(|file| file == "--help") {
        print!("{HELP}");
        return ExitCode::SUCCESS;
    }
    if files.is_empty() {
        eprint!("{HELP}");
        return ExitCode::from(2);
    }
    let pieces = Pieces::all();
    for file in files {
        match fs::read(&file).map(|bytes| pieces.find(&bytes)) {
            Ok(None) => println!("{file}: no table of energies"),
            Ok(Some(found)) => {
                println!("{file}: {found}");
                return ExitCode::FAILURE;
            }
            Err(error) => {
                eprintln!("cannot read {file}: {error}");
                return ExitCode::from(2);
            }
        }
    }
    ExitCode::SUCCESS
}
