//! Writes a seeded random turn file to standard output.
#![forbid(unsafe_code)]

use std::io::{self, BufWriter, ErrorKind};
use std::process::ExitCode;

use schedule::Options;
use second::{Shape, LENT_WORDS};

const HELP: &str = "\
usage: schedule SEED RECORDS [options]

Writes a turn file of RECORDS records to standard output. The same arguments
always give the same bytes; another SEED (0 to 2^64 - 1) gives other ones.

Schedules have small shapes with few nodes and sometimes large ones, several
openings, bursts and long pauses of single workers inside a call, workers
gathered before the same stage, times of all 32 bits (equal and close ones, at
the borders of the last bucket and far behind them), few reflection orders or
all, so that equal times have equal and other ones, and records that are refused
by 1, 2, 4, 5, 9, 10 and 12. (3 and 11 are out of a turn file's reach; 7 and 8
need --damaged; 6 is not given since Q-1.)

options:
  --damaged          flips fields now and then, and mostly ends the run by 7 or 8:
                     a cut record, one byte left over, an unknown mark, a byte
                     missing or inserted, noise; may write fewer records
  --one-opening      opens once and never again
  --no-refusals      no records that are meant to be refused, and none by 12
  --shape W,N,B,S    every accepted opening has these workers, nodes, buckets
                     and width in samples; it must fit 4,355 words
  --help             prints this text
";

struct Arguments {
    seed: u64,
    records: u64,
    damaged: bool,
    options: Options,
}

fn main() -> ExitCode {
    let words: Vec<String> = std::env::args().skip(1).collect();
    if words.iter().any(|word| word == "--help") {
        print!("{HELP}");
        return ExitCode::SUCCESS;
    }
    let arguments = match parse(&words) {
        Some(arguments) => arguments,
        None => {
            eprint!("{HELP}");
            return ExitCode::from(2);
        }
    };
    match write(&arguments) {
        Ok(()) => ExitCode::SUCCESS,
        Err(error) if error.kind() == ErrorKind::BrokenPipe => ExitCode::SUCCESS,
        Err(error) => {
            eprintln!("schedule: cannot write: {error}");
            ExitCode::FAILURE
        }
    }
}

fn write(arguments: &Arguments) -> io::Result<()> {
    let output = BufWriter::with_capacity(64 * 1024, io::stdout().lock());
    let Arguments {
        seed,
        records,
        options,
        ..
    } = *arguments;
    if arguments.damaged {
        schedule::write_damaged(seed, records, options, output)
    } else {
        schedule::write(seed, records, options, output)
    }
}

fn parse(words: &[String]) -> Option<Arguments> {
    let (seed, records, options) = match words {
        [seed, records, options @ ..] => (seed, records, options),
        _ => return None,
    };
    let mut arguments = Arguments {
        seed: seed.parse().ok()?,
        records: records.parse().ok()?,
        damaged: false,
        options: Options::default(),
    };
    let mut rest = options.iter();
    while let Some(option) = rest.next() {
        match option.as_str() {
            "--damaged" => arguments.damaged = true,
            "--one-opening" => arguments.options.one_opening = true,
            "--no-refusals" => arguments.options.no_refusals = true,
            "--shape" => arguments.options.shape = Some(parse_shape(rest.next()?)?),
            _ => return None,
        }
    }
    Some(arguments)
}

/// A shape that the program opens.
fn parse_shape(text: &str) -> Option<Shape> {
    let fields: Result<Vec<u32>, _> = text.split(',').map(str::parse).collect();
    let shape = match *fields.ok()?.as_slice() {
        [workers, nodes, buckets, width] => Shape {
            workers,
            nodes,
            buckets,
            width,
        },
        _ => return None,
    };
    (shape.is_within_limits() && shape.store_words() <= LENT_WORDS).then_some(shape)
}
