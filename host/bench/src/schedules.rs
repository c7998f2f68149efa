//! Whole schedules: the batch entry and `turns` against the second program.

use std::io;
use std::time::Duration;

use schedule::script::shape;
use schedule::{Generator, Options};
use second::{Program, LENT_RECORDS, LENT_WORDS};

use crate::arguments::Arguments;
use crate::engines::{assert_same_lines, BatchEntry, Engine};
use crate::programs::{Pair, Unmeasured};
use crate::report::{heading, row, skipped, Target};
use crate::timing::{best, nanoseconds_each, time};

pub fn run(arguments: &Arguments) -> io::Result<()> {
    heading(
        "Schedules: millions of records a second, ours and the second program's, same input",
        "(the batch entry against the second program's library, both in memory;\n \
         the program turns against the second program, time on the processor)",
    );
    for (name, options) in schedules() {
        let pieces = pieces(arguments.records, options);
        println!(" {name}, {} records", arguments.records);
        in_memory(arguments, name, &pieces);
        as_programs(arguments, name, &pieces.concat())?;
    }
    Ok(())
}

fn schedules() -> [(&'static str, Options); 3] {
    let one_pool = |workers, nodes, buckets| Options {
        one_opening: true,
        no_refusals: true,
        shape: Some(shape(workers, nodes, buckets, 100)),
    };
    [
        ("4 workers, 500 nodes, 256 buckets", one_pool(4, 500, 256)),
        ("16 workers, 64 nodes, 64 buckets", one_pool(16, 64, 64)),
        ("all shapes, openings and refusals", Options::default()),
    ]
}

/// The turn file of a schedule, cut between records.
fn pieces(records: u64, options: Options) -> Vec<Vec<u8>> {
    const PIECE: u64 = 100_000;
    let mut generator = Generator::new(1, options);
    let mut pieces = Vec::new();
    let mut left = records;
    while left > 0 {
        let mut piece = Vec::new();
        for _ in 0..left.min(PIECE) {
            generator.next_record().0.encode(&mut piece);
        }
        pieces.push(piece);
        left = left.saturating_sub(PIECE);
    }
    pieces
}

/// Every round begins with no pool open, as a program does.
fn in_memory(arguments: &Arguments, name: &str, pieces: &[Vec<u8>]) {
    let ours = || BatchEntry::lending(LENT_WORDS, LENT_RECORDS);
    let (mut entry, mut library) = (ours(), Program::new());
    for piece in pieces {
        assert_same_lines(name, &entry.lines(piece), &library.lines(piece));
    }
    let [entry, library] = best(
        arguments.rounds,
        [&mut || time_pieces(&mut ours(), pieces), &mut || {
            time_pieces(&mut Program::new(), pieces)
        }],
    );
    show("batch entry", arguments.records, entry, library, 1.15);
}

fn time_pieces(engine: &mut impl Engine, pieces: &[Vec<u8>]) -> Vec<Duration> {
    let times = pieces.iter().map(|piece| time(|| engine.run(piece)));
    times.collect()
}

fn as_programs(arguments: &Arguments, name: &str, input: &[u8]) -> io::Result<()> {
    let pair = match Pair::new(&arguments.turns, &arguments.second, input)? {
        Ok(pair) => pair,
        Err(Unmeasured(why)) => {
            skipped("program turns", &why);
            return Ok(());
        }
    };
    let (turns, second) = pair.outputs()?;
    assert_same_lines(name, &turns, &second);
    let [turns, second] = best(
        arguments.rounds,
        [&mut || vec![pair.time_first()], &mut || {
            vec![pair.time_second()]
        }],
    );
    show("program turns", arguments.records, turns, second, 1.0);
    Ok(())
}

fn show(name: &str, records: u64, ours: Duration, others: Duration, target: f64) {
    let speeds = [ours, others].map(|time| 1e3 / nanoseconds_each(time, records as usize));
    let ratio = speeds[0] / speeds[1];
    row(name, speeds, "M/s", ratio, Target::AtLeast(target));
}
