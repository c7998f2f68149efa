//! How an echogram decays: the curve beside passes that add up the row and a division a
//! slot, and all that is measured of a row beside the second program's.

use std::time::Duration;

use schedule::Random;
use wubraken::Echogram;

use crate::arguments::Arguments;
use crate::echogram::time_passes;
use crate::report::{compared, heading, row, Target};
use crate::timing::{best, cycles_in, keep, nanoseconds_each, time, unknown};

/// What a piece of a contest takes, about: so many microseconds.
const PIECE: u64 = 50;
/// In the time that a curve is allowed.
const PASSES: usize = 3;
/// All rows hold about as much, just below 2^32.
const WHOLE: f64 = 4e9;
/// Slots of a sparse row that hold something.
const HEARD: usize = 16;

/// Makes a row of so many slots.
type Make = fn(usize) -> Vec<u32>;

const ROWS: [(&str, Make); 4] = [
    ("exponential", decaying),
    ("at random", scattered),
    ("all equal", equal),
    ("sparse", sparse),
];

pub fn run(arguments: &Arguments) {
    heading(
        "The decay curve of 16,384 slots: nanoseconds, and those allowed",
        "(allowed are 3 passes that add up the row in 64 bits, and the divisions: 1,024 times what is\n \
         still to come, by the whole, for each slot, in a loop of their own over 64-bit numbers.\n \
         exponential: 60 dB down the row; at random: each slot at random up to that; sparse: 16 slots\n \
         hold all. ratio: which part of the allowed time it takes)",
    );
    for (name, make) in ROWS {
        against_passes(arguments, name, &make(Echogram::MAX_SLOTS));
    }
    heading(
        "The decay of an echogram: nanoseconds, ours and the second program's",
        "(the second program's by a pointer to a function; its table of levels is there before. Where no\n \
         row is named, it is the exponential one. A level is that of the slot a quarter down the row)",
    );
    curves(arguments);
    measures(arguments);
}

fn curves(arguments: &Arguments) {
    for (name, make) in ROWS {
        let name = format!("curve, {} slots, {name}", Echogram::MAX_SLOTS);
        against_second(arguments, &name, &make(Echogram::MAX_SLOTS), CURVE);
    }
    for slots in [1_000, 100, 10] {
        let name = format!("curve, {slots} slots");
        against_second(arguments, &name, &decaying(slots), CURVE);
    }
}

fn measures(arguments: &Arguments) {
    for (name, sides) in [("early decay", EARLY), ("T20", T20), ("a level", LEVEL)] {
        for slots in [Echogram::MAX_SLOTS, 100] {
            let name = format!("{name}, {slots} slots");
            against_second(arguments, &name, &decaying(slots), sides);
        }
    }
}

fn against_passes(arguments: &Arguments, name: &str, slots: &[u32]) {
    let left = left_of(slots);
    let mut curve = Side::new(slots, CURVE.ours);
    let count = cycles_in(PIECE, || curve.time(1));
    let [curve, pass, divisions] = best(
        arguments.short_rounds * arguments.rounds,
        [
            &mut || vec![curve.time(count)],
            &mut || vec![time_passes(slots, count)],
            &mut || vec![time_divisions(&left, count)],
        ],
    )
    .map(|time| nanoseconds_each(time, count));
    let allowed = PASSES as f64 * pass + divisions;
    let (ratio, passes) = (curve / allowed, curve / pass);
    row(name, [curve, allowed], "ns", ratio, Target::AtMost(1.0));
    println!(
        "    allowed: {PASSES} passes of {pass:.1} ns, and divisions of {divisions:.1} ns; it takes \
         {passes:.2} passes"
    );
    // Of the divisions allowed the curve makes one for each new ratio.
    let made = changes(&left);
    let fewer = PASSES as f64 * pass + divisions * made as f64 / left.len() as f64;
    println!(
        "    were only the {made} divisions allowed that it makes: ratio {:.2}",
        curve / fewer
    );
}

/// How often the ratio at a slot is another than at the slot behind it; behind the last
/// it is 0.
fn changes(left: &[u64]) -> usize {
    let ratios: Vec<u64> = left.iter().map(|&part| 1_024 * part / left[0]).collect();
    let behind = ratios.iter().skip(1).chain(&[0]);
    ratios.iter().zip(behind).filter(|(a, b)| a != b).count()
}

/// What is still to come at each slot.
fn left_of(slots: &[u32]) -> Vec<u64> {
    let mut left = 0;
    let from_the_end = slots.iter().rev().map(|&slot| {
        left += u64::from(slot);
        left
    });
    let mut all: Vec<u64> = from_the_end.collect();
    all.reverse();
    all
}

fn time_divisions(left: &[u64], count: usize) -> Duration {
    time(|| {
        for _ in 0..count {
            keep(divide(unknown(left), unknown(left[0])));
        }
    })
}

#[inline(never)]
fn divide(left: &[u64], whole: u64) -> u64 {
    left.iter().map(|&left| 1_024 * left / whole).sum()
}

fn against_second(arguments: &Arguments, name: &str, slots: &[u32], sides: Sides) {
    let mut ours = Side::new(slots, sides.ours);
    let mut second = Side::new(slots, sides.second);
    assert!(ours.run() == second.run(), "{name}: the two differ");
    let count = cycles_in(PIECE, || ours.time(1));
    let each = best(
        arguments.short_rounds * arguments.rounds,
        [&mut || vec![ours.time(count)], &mut || {
            vec![second.time(count)]
        }],
    )
    .map(|time| nanoseconds_each(time, count));
    compared(name, each, "ns", each[1] / each[0]);
}

/// Row, and a place for the level of each slot; it answers what else it measures.
type Measure = fn(&[u32], &mut [u16]) -> u64;

/// A contestant: who measures, and what.
struct Side<'a> {
    slots: &'a [u32],
    levels: Vec<u16>,
    measure: Measure,
}

impl<'a> Side<'a> {
    fn new(slots: &'a [u32], measure: Measure) -> Self {
        Self {
            slots,
            levels: vec![0; slots.len()],
            measure,
        }
    }

    fn time(&mut self, count: usize) -> Duration {
        time(|| {
            for _ in 0..count {
                keep((self.measure)(self.slots, &mut self.levels));
            }
        })
    }

    /// What it answers, and the levels.
    fn run(&mut self) -> (u64, Vec<u16>) {
        let measured = (self.measure)(self.slots, &mut self.levels);
        (measured, self.levels.clone())
    }
}

/// Two that must agree.
#[derive(Clone, Copy)]
struct Sides {
    ours: Measure,
    second: Measure,
}

const CURVE: Sides = Sides {
    ours: |slots, levels| {
        echogram(slots).decay_curve(levels).expect(ACCEPTED);
        0
    },
    second: |slots, levels| {
        unknown::<Draw>(second::decay_curve)(slots, levels).expect(ACCEPTED);
        0
    },
};

const EARLY: Sides = Sides {
    ours: |slots, _| echogram(slots).early_decay().expect(ACCEPTED),
    second: |slots, _| unknown::<Count>(second::early_decay)(slots).expect(ACCEPTED),
};

const T20: Sides = Sides {
    ours: |slots, _| echogram(slots).t20().expect(ACCEPTED),
    second: |slots, _| unknown::<Count>(second::t20)(slots).expect(ACCEPTED),
};

const LEVEL: Sides = Sides {
    ours: |slots, _| {
        let level = echogram(slots).level(quarter(slots));
        level.expect(ACCEPTED).expect("much is left").into()
    },
    second: |slots, _| {
        let level = unknown::<Level>(second::level)(slots, quarter(slots));
        level.expect(ACCEPTED).expect("much is left").into()
    },
};

const ACCEPTED: &str = "the row is within its limits, and not silent";

// The second program's functions: by a pointer, they are not compiled for one caller.
type Draw = fn(&[u32], &mut [u16]) -> Result<(), second::Refusal>;
type Count = fn(&[u32]) -> Result<u64, second::Refusal>;
type Level = fn(&[u32], u64) -> Result<Option<u16>, second::Refusal>;

/// The slot length does not count.
fn echogram(slots: &[u32]) -> Echogram<&[u32]> {
    Echogram::resume(slots, 1)
}

fn quarter(slots: &[u32]) -> u64 {
    slots.len() as u64 / 4
}

// Rows.

/// Falls by 60 dB down the row.
fn decaying(slots: usize) -> Vec<u32> {
    let factor = 0.1f64.powf(6.0 / slots as f64);
    let energy = |k| WHOLE * (1.0 - factor) * factor.powi(k);
    (0..slots as i32).map(|k| energy(k) as u32).collect()
}

fn scattered(slots: usize) -> Vec<u32> {
    let mut random = Random::new(slots as u64);
    let bounds = decaying(slots).into_iter();
    bounds.map(|bound| random.below(bound + 1)).collect()
}

fn equal(slots: usize) -> Vec<u32> {
    vec![(WHOLE / slots as f64) as u32; slots]
}

fn sparse(slots: usize) -> Vec<u32> {
    let mut random = Random::new(slots as u64);
    let mut row = vec![0; slots];
    for _ in 0..HEARD {
        row[random.below(slots as u32) as usize] += (WHOLE / HEARD as f64) as u32;
    }
    row
}
