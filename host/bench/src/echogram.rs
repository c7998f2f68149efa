//! The echogram: a series of recordings beside the second program's, and a single one
//! beside a pass that adds up the row.

use std::time::Duration;

use schedule::Random;
use wubraken::Echogram;

use crate::arguments::Arguments;
use crate::report::{heading, row, Target};
use crate::timing::{best, cycles_in_a_millisecond, keep, nanoseconds_each, time, unknown, SHORT};

const SLOTS: [usize; 4] = [10, 100, 1_000, Echogram::MAX_SLOTS];
/// A millisecond.
const SLOT_LENGTH: u32 = 48;
const RECORDINGS: usize = 100_000;
/// How many of them are a series, and in which rows: in a long row a short series is
/// nothing but the pass that adds it up.
const PIECES: [(usize, &[usize]); 4] = [
    (RECORDINGS, &SLOTS),
    (16, &SLOTS),
    (4, &[10, 100, 1_000]),
    (1, &[10, 100, 1_000]),
];

pub fn run(arguments: &Arguments) {
    heading(
        "An echogram by series: nanoseconds a recording, ours and the second program's",
        "(100,000 recordings at random in a cleared row, which is added up once a series; the second\n \
         program's loop, by a pointer to a function, carries the sum, too)",
    );
    for (piece, rows) in PIECES {
        for &slots in rows {
            series(arguments, slots, piece);
        }
    }
    heading(
        "An echogram by single recordings: nanoseconds, and for one pass over the row",
        "(a recording adds up the row, whatever that holds; a pass adds up its slots in 64 bits.\n \
         ratio: how many passes a recording takes)",
    );
    for slots in SLOTS {
        single(arguments, slots);
    }
}

fn series(arguments: &Arguments, slots: usize, piece: usize) {
    let series = Series::draw(slots, piece);
    let mut ours = Side::new(&series, slots, record_ours);
    let mut second = Side::new(&series, slots, record_second);
    assert!(ours.run() == second.run(), "the echograms differ");
    let each = best(
        SHORT * arguments.rounds,
        [&mut || vec![ours.time()], &mut || vec![second.time()]],
    )
    .map(|time| nanoseconds_each(time, RECORDINGS));
    let (name, ratio) = (
        format!("{slots} slots, {piece} a series"),
        each[1] / each[0],
    );
    row(&name, each, "ns", ratio, Target::AtLeast(1.0));
}

/// Recordings that all lie in the row, and whose energies have a sum below 2^32.
struct Series {
    times: Vec<u32>,
    energies: Vec<u32>,
    piece: usize,
}

impl Series {
    fn draw(slots: usize, piece: usize) -> Self {
        let mut random = Random::new(slots as u64);
        let span = SLOT_LENGTH * slots as u32;
        Self {
            times: (0..RECORDINGS).map(|_| random.below(span)).collect(),
            energies: (0..RECORDINGS).map(|_| random.below(10_000)).collect(),
            piece,
        }
    }
}

/// Times, energies, answers and row.
type Record = fn(&[u32], &[u32], &mut [u8], &mut [u32]);

/// A contestant: who records, and into what.
struct Side<'a> {
    series: &'a Series,
    answers: Vec<u8>,
    row: Vec<u32>,
    record: Record,
}

impl<'a> Side<'a> {
    fn new(series: &'a Series, slots: usize, record: Record) -> Self {
        Self {
            series,
            answers: vec![0; RECORDINGS],
            row: vec![0; slots],
            record,
        }
    }

    fn time(&mut self) -> Duration {
        self.row.fill(0);
        let (series, record) = (self.series, self.record);
        let (answers, row) = (&mut self.answers, &mut self.row);
        let times = series.times.chunks(series.piece);
        let energies = series.energies.chunks(series.piece);
        let pieces = times.zip(energies).zip(answers.chunks_mut(series.piece));
        time(|| {
            for ((times, energies), answers) in pieces {
                record(times, energies, answers, row);
            }
        })
    }

    /// The answers and the row. Every recording is accepted.
    fn run(&mut self) -> (Vec<u8>, Vec<u32>) {
        self.answers.fill(1);
        self.time();
        assert!(self.answers.iter().all(|&answer| answer == 0));
        (self.answers.clone(), self.row.clone())
    }
}

fn record_ours(times: &[u32], energies: &[u32], answers: &mut [u8], row: &mut [u32]) {
    Echogram::resume(row, SLOT_LENGTH.into())
        .record_series(times, energies, answers)
        .expect("the row is within its limits");
}

/// By a pointer, so that it is not compiled for this slot length.
fn record_second(times: &[u32], energies: &[u32], answers: &mut [u8], row: &mut [u32]) {
    type RecordSeries =
        fn(u64, &[u32], &[u32], &mut [u8], &mut [u32]) -> Result<(), second::Refusal>;
    let record: RecordSeries = unknown(second::record_series);
    record(SLOT_LENGTH.into(), times, energies, answers, row)
        .expect("the row is within its limits");
}

fn single(arguments: &Arguments, slots: usize) {
    let times = Series::draw(slots, RECORDINGS).times;
    let mut echogram = Echogram::new(slots, SLOT_LENGTH.into()).expect("so many slots will do");
    let summed = vec![1; slots];
    let count = cycles_in_a_millisecond(|| time_single(&mut echogram, &times[..1]));
    let times = &times[..count];
    let each = best(
        SHORT * arguments.rounds,
        [&mut || vec![time_single(&mut echogram, times)], &mut || {
            vec![time_passes(&summed, count)]
        }],
    )
    .map(|time| nanoseconds_each(time, count));
    let (name, ratio) = (format!("{slots} slots"), each[0] / each[1]);
    row(&name, each, "ns", ratio, Target::AtMost(1.5));
}

fn time_single(echogram: &mut Echogram, times: &[u32]) -> Duration {
    time(|| {
        for &time in times {
            echogram.record(time, 1).expect("the sum stays small");
        }
    })
}

/// How long so many passes take, each of which adds up the row.
pub fn time_passes(row: &[u32], passes: usize) -> Duration {
    time(|| {
        for _ in 0..passes {
            keep(sum(unknown(row)));
        }
    })
}

#[inline(never)]
fn sum(row: &[u32]) -> u64 {
    row.iter().map(|&slot| u64::from(slot)).sum()
}
