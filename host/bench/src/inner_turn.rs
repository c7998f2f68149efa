//! The turn by itself: batches that are nearly all turns.

use schedule::script::{put, shape, take};
use second::{Program, LENT_RECORDS, LENT_WORDS};

use crate::arguments::Arguments;
use crate::engines::{assert_same_lines, BatchEntry, Engine};
use crate::recorder::{Batch, Recorder};
use crate::report::{heading, row, Target};
use crate::timing::{best, nanoseconds_each, time};

pub fn run(arguments: &Arguments) {
    heading(
        "The turn by itself: nanoseconds a record, the batch entry and the second program's library",
        "(nearly all records are turns: one is read, the worker stepped, a line written)",
    );
    for (name, batch) in [
        ("walking along a list (stage 2)", walking()),
        ("past empty buckets (stages 9, 12)", passing()),
    ] {
        contest(arguments, name, &batch.repeated(PIECE));
    }
}

/// Records timed at a time.
const PIECE: usize = 100_000;

/// Equal times and orders in one bucket: each put walks past all before it.
fn walking() -> Batch {
    let mut recorder = Recorder::open(shape(1, 500, 1, 1));
    for _ in 0..500 {
        recorder.call(put(0, 0));
    }
    recorder.cut()
}

/// A take that finds the pool empty.
fn passing() -> Batch {
    let mut recorder = Recorder::open(shape(1, 1, 256, 1));
    recorder.call(take(0));
    recorder.cut()
}

fn contest(arguments: &Arguments, name: &str, batch: &Batch) {
    let mut entry = BatchEntry::lending(LENT_WORDS, LENT_RECORDS);
    let mut library = Program::new();
    let input = &batch.bytes;
    assert_same_lines(name, &entry.lines(input), &library.lines(input));
    let pieces = arguments.pieces_of_turns;
    let [ours, others] = best(
        arguments.rounds,
        [
            &mut || (0..pieces).map(|_| time(|| entry.run(input))).collect(),
            &mut || (0..pieces).map(|_| time(|| library.run(input))).collect(),
        ],
    );
    let each = [ours, others].map(|time| nanoseconds_each(time, pieces * batch.records.len()));
    row(name, each, "ns", each[1] / each[0], Target::AtLeast(1.0));
    let share = 100.0 * batch.turns as f64 / batch.records.len() as f64;
    println!("    {share:.1} per cent of its records are turns");
}
