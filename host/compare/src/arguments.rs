//! The command line.

use std::ops::Range;

pub const HELP: &str = "\
usage: compare ENGINE [options]

Runs the program ENGINE, which reads a turn file and prints one line a record,
on many turn files. Its lines must be those of the second program; by themselves
they must keep promises 2 to 5 on the arrivals taken (docs/READING.md), in files
of any length; and in small histories its calls must have an order of a plain
queue. Ends with status 0 if all is well, with 1 at the first file that is wrong,
with 2 for wrong arguments. The last line counts where each promise had something
to say: for 2 and 3 the puts that must be marked when some take ends, and those
of them then held by another; for 4 the takes whose arrival had been in the pool
all through another take; for 5 the answers, and those of alike arrivals.

Files written by hand, a file with every distance, cut files and files with wrong
marks always run, and random files of some seeds, with times of all 32 bits: small
histories, damaged ones and three long ones a seed.

options:
  --seeds FROM..TO   runs these seeds, TO excluded, in place of 0..16
  --fresh N          adds N seeds made from the time of day, and prints them
  --records K        records of a long file, in place of 100000
  --help             prints this text
";

#[derive(Clone, Debug, PartialEq, Eq)]
pub struct Arguments {
    pub engine: String,
    pub seeds: Range<u64>,
    pub fresh: u64,
    pub records: u64,
}

/// None for arguments that cannot be understood.
pub fn parse(words: &[String]) -> Option<Arguments> {
    let (engine, options) = words.split_first()?;
    if engine.starts_with("--") {
        return None;
    }
    let mut arguments = Arguments {
        engine: engine.clone(),
        seeds: 0..16,
        fresh: 0,
        records: 100_000,
    };
    let mut rest = options.iter();
    while let Some(option) = rest.next() {
        let value = rest.next()?;
        match option.as_str() {
            "--seeds" => arguments.seeds = range(value)?,
            "--fresh" => arguments.fresh = value.parse().ok()?,
            "--records" => arguments.records = value.parse().ok()?,
            _ => return None,
        }
    }
    Some(arguments)
}

fn range(text: &str) -> Option<Range<u64>> {
    let (from, to) = text.split_once("..")?;
    let (from, to) = (from.parse().ok()?, to.parse().ok()?);
    (from <= to).then_some(from..to)
}

/// The command that runs only this seed, or no seed at all.
pub fn again(arguments: &Arguments, seed: Option<u64>) -> String {
    let Arguments {
        engine, records, ..
    } = arguments;
    let seeds = seed.map_or(0..0, |seed| seed..seed.saturating_add(1));
    format!("compare {engine} --seeds {seeds:?} --records {records}")
}
