//! The words of the command line.

use std::ffi::OsString;
use std::path::PathBuf;

use wubraken::{Echogram, Shape};

use crate::geometry::{Hall, GREATEST_ORDER, SAMPLES_PER_MILLISECOND};
use crate::tracer::{Interleaving, Job, SLOTS};

pub fn help() -> String {
    format!(
        "\
usage: hall [options]

Traces the echoes of a shoebox hall with several workers that share one pool of
arrivals: each takes the earliest, at equal times the one with the fewest reflections,
mirrors its source once more, and puts the reflections back. Prints what was taken
(time in samples at 48 kHz, path, order, distance in metres, energy), an account, and
the echogram, the energies added up by time, with the level of each slot in decibels.
At the end come early decay and T20, in slots and milliseconds: by first crossings, in
whole slots; no line is fitted, where ISO 3382 fits one. The same options print the
same.

options:
  --seed N       the workers' starts and turns come in a random order, made from
                 this seed (default 1)
  --dealer       instead of a random order, a dealer: each worker that is idle
                 begins its next call at once, and the turns go round among those
                 that have one in progress; not together with --seed
  --workers N    1 to {} (default 3)
  --nodes N      how many arrivals the pool has room for, 1 to {} (default 12)
  --order N      no reflections beyond this order, 0 to {GREATEST_ORDER} (default 2)
  --span MS      how many milliseconds the buckets cover, 1 to {} (default 100);
                 whatever comes later shares the last bucket
  --slot MS      how many milliseconds a slot of the echogram has, 1 to {}; whatever
                 comes after {SLOTS} slots is refused, and counted (default: as few as
                 let all of it fit)
  --curve FILE   writes the decay curve, the levels by time, as a picture (SVG)
  --help         prints this text
",
        Shape::MAX_WORKERS,
        Shape::MAX_NODES,
        Shape::MAX_WIDTH / WIDTH_PER_MILLISECOND,
        Echogram::MAX_SLOT_LENGTH / SAMPLES_PER_MILLISECOND
    )
}

#[derive(Clone, Debug, PartialEq, Eq)]
pub struct Arguments {
    pub interleaving: Interleaving,
    pub workers: u64,
    pub nodes: u64,
    pub order: u32,
    pub span: u64,
    pub slot: Option<u64>,
    /// The file for the decay curve.
    pub curve: Option<PathBuf>,
}

impl Default for Arguments {
    fn default() -> Self {
        Self {
            interleaving: Interleaving::AtRandom(1),
            workers: 3,
            nodes: 12,
            order: 2,
            span: 100,
            slot: None,
            curve: None,
        }
    }
}

const BUCKETS: u64 = 16;
const WIDTH_PER_MILLISECOND: u64 = SAMPLES_PER_MILLISECOND / BUCKETS;

impl Arguments {
    /// None for words that make no sense.
    pub fn parse(words: &[OsString]) -> Option<Self> {
        let mut arguments = Self::default();
        let (mut seed, mut is_dealt) = (None, false);
        let mut words = words.iter();
        while let Some(name) = words.next() {
            let mut number = || words.next()?.to_str()?.parse::<u64>().ok();
            match name.to_str()? {
                "--seed" => seed = Some(number()?),
                "--dealer" => is_dealt = true,
                "--workers" => arguments.workers = number()?,
                "--nodes" => arguments.nodes = number()?,
                "--order" => arguments.order = u32::try_from(number()?).ok()?,
                "--span" => arguments.span = number()?,
                "--slot" => arguments.slot = Some(number()?),
                "--curve" => arguments.curve = Some(words.next()?.into()),
                _ => return None,
            }
        }
        match (seed, is_dealt) {
            (None, false) => {}
            (Some(seed), false) => arguments.interleaving = Interleaving::AtRandom(seed),
            (None, true) => arguments.interleaving = Interleaving::Dealt,
            // A dealer leaves nothing to a seed.
            (Some(_), true) => return None,
        }
        (arguments.order <= GREATEST_ORDER).then_some(arguments)
    }

    /// The job; the pool judges its shape, and the echogram its slots.
    pub fn job(&self) -> Job {
        Job {
            hall: CONCERT_HALL,
            order: self.order,
            shape: Shape {
                workers: self.workers,
                nodes: self.nodes,
                buckets: BUCKETS,
                width: self.span.saturating_mul(WIDTH_PER_MILLISECOND),
            },
            interleaving: self.interleaving,
            slot: self.slot,
        }
    }
}

const CONCERT_HALL: Hall = Hall {
    size: [2_400, 1_600, 1_100],
    source: [500, 700, 150],
    listener: [1_500, 850, 120],
};
