//! Compares an engine with the second program.
#![forbid(unsafe_code)]

use std::ops::Range;
use std::process::ExitCode;
use std::time::{SystemTime, UNIX_EPOCH};

use compare::arguments::{self, Arguments, HELP};
use compare::engine::Engine;
use compare::suite;
use compare::taken_list::Met;

fn main() -> ExitCode {
    let words: Vec<String> = std::env::args().skip(1).collect();
    if words.iter().any(|word| word == "--help") {
        print!("{HELP}");
        return ExitCode::SUCCESS;
    }
    match arguments::parse(&words) {
        Some(arguments) => compare(&arguments),
        None => {
            eprint!("{HELP}");
            ExitCode::from(2)
        }
    }
}

fn compare(arguments: &Arguments) -> ExitCode {
    let engine = Engine::new(&arguments.engine);
    let mut seeds: Vec<u64> = arguments.seeds.clone().collect();
    if arguments.fresh > 0 {
        let fresh = fresh_seeds(arguments.fresh);
        println!("fresh seeds {fresh:?}");
        seeds.extend(fresh);
    }
    let mut met = Met::default();
    for group in suite::groups(&seeds, arguments.records) {
        let name = group.name;
        match suite::run(&engine, group) {
            Ok(counts) => {
                println!("{name:<16}{counts}");
                met += counts.met;
            }
            Err(failure) => {
                print!("{failure}");
                println!("again: {}", arguments::again(arguments, failure.seed));
                return ExitCode::FAILURE;
            }
        }
    }
    println!("promises        {met}");
    ExitCode::SUCCESS
}

/// Seeds that no run before had: microseconds since 1970.
fn fresh_seeds(count: u64) -> Range<u64> {
    let since = SystemTime::now().duration_since(UNIX_EPOCH);
    let first = since.map_or(0, |since| since.as_micros() as u64);
    first..first + count
}
