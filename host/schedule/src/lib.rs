//! Turn files for the arrival pool, seeded random ones and those written by hand,
//! random lent memory, random echograms, and random rows that die away or do not.
#![forbid(unsafe_code)]

pub mod by_hand;
pub mod decided;
pub mod distances;
pub mod echograms;
pub mod lent;
pub mod orders;
pub mod reflections;
pub mod rows;
pub mod script;
pub mod stored;
pub mod ties;
pub mod times;

mod damage;
mod generator;
mod phase;
mod shapes;

use std::io::{self, Read, Write};

use damage::Damage;
pub use generator::{Generator, Options};
pub use random::Random;
pub use script::Script;

/// Takes turns to the end of a call, past those answered `on`: how many, and the last answer.
/// It panics if the call has not ended after the `most` turns that it may have.
pub fn to_the_end<A: PartialEq>(most: usize, on: A, mut turn: impl FnMut() -> A) -> (usize, A) {
    for turns in 1..=most {
        let answer = turn();
        if answer != on {
            return (turns, answer);
        }
    }
    panic!("no end after {most} turns");
}

/// The lines that the second program prints for an input.
pub fn lines(input: impl Read) -> String {
    let mut output = Vec::new();
    second::run(input, &mut output).expect("a vector takes all");
    String::from_utf8(output).expect("lines are text")
}

/// Writes the turn file of a seed.
pub fn write(seed: u64, records: u64, options: Options, mut output: impl Write) -> io::Result<()> {
    let mut generator = Generator::new(seed, options);
    let mut bytes = Vec::new();
    for _ in 0..records {
        let (record, _) = generator.next_record();
        bytes.clear();
        record.encode(&mut bytes);
        output.write_all(&bytes)?;
    }
    output.flush()
}

/// Writes a damaged turn file of a seed.
pub fn write_damaged(
    seed: u64,
    records: u64,
    options: Options,
    mut output: impl Write,
) -> io::Result<()> {
    let mut generator = Generator::new(seed, options);
    let damage = Damage::new(generator.random(), records);
    let mut bytes = Vec::new();
    for index in 0..records {
        let proposed = generator.propose();
        let record = damage.flip(generator.random(), proposed);
        // The record is usually refused or ignored; the schedule follows it.
        let _ = generator.apply(record);
        bytes.clear();
        record.encode(&mut bytes);
        let goes_on = damage.strike(generator.random(), index, &mut bytes);
        output.write_all(&bytes)?;
        if !goes_on {
            break;
        }
    }
    output.flush()
}
