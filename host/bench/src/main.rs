//! Times the proved pool against its peers.
#![deny(unsafe_code)]

mod arguments;
mod decay;
mod echogram;
mod engines;
mod growth;
mod heap;
mod hold;
mod hold_model;
mod hold_narrow;
mod inner_turn;
mod programs;
mod recorder;
mod report;
mod schedules;
mod shapes;
mod single_calls;
mod svg;
mod tail;
mod tbb;
mod threads;
mod timing;
mod whole_calls;

use std::io;
use std::process::ExitCode;

use arguments::{Arguments, Part, HELP};

fn main() -> ExitCode {
    let words: Vec<String> = std::env::args().skip(1).collect();
    if words.iter().any(|word| word == "--help") {
        print!("{HELP}");
        return ExitCode::SUCCESS;
    }
    let arguments = match Arguments::parse(&words) {
        Some(arguments) => arguments,
        None => {
            eprint!("{HELP}");
            return ExitCode::from(2);
        }
    };
    match run(&arguments) {
        Ok(()) => ExitCode::SUCCESS,
        Err(error) => {
            eprintln!("bench: {error}");
            ExitCode::FAILURE
        }
    }
}

fn run(arguments: &Arguments) -> io::Result<()> {
    println!("Machine: {}", report::machine());
    println!(
        "Best of {} rounds, in which the contestants take turns.",
        arguments.rounds
    );
    println!("Ratios against the second program are of speed: 1.0 or more is as fast, or faster.");
    for part in &arguments.parts {
        match part {
            Part::Schedules => schedules::run(arguments)?,
            Part::InnerTurn => inner_turn::run(arguments),
            Part::Hold => hold::run(arguments),
            Part::Threads => threads::run(arguments),
            Part::NarrowCalls => programs::run_contest(&arguments.narrow, &[arguments.rounds])?,
            Part::SingleCalls => single_calls::run(arguments),
            Part::Growth => growth::run(arguments)?,
            Part::Tail => tail::run(arguments)?,
            Part::Echogram => echogram::run(arguments),
            Part::Decay => decay::run(arguments),
            Part::Dealer => {
                let numbers = [arguments.rounds, arguments.holds];
                programs::run_contest(&arguments.dealer, &numbers)?;
            }
        }
    }
    Ok(())
}
