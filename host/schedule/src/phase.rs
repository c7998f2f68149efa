//! A phase: for some records, who moves next and what is put.

use random::Random;
use second::{stage, Shape, Worker};

use crate::{reflections, times};

/// How the next worker is chosen.
enum Pattern {
    Uniform,
    /// One worker for several records, then another.
    Bursts {
        worker: usize,
        left: u32,
    },
    /// Two workers only.
    Pair(usize, usize),
    /// All workers are brought to one stage, then let go.
    Gather(u64),
    RoundRobin(usize),
}

/// How times are chosen.
enum Times {
    /// In all buckets, with no tail.
    Within,
    Any,
    /// One of these.
    Few(Vec<u32>),
    /// A few neighbouring times.
    Close(u32),
    /// First and last times of buckets, of the last one with its tail or without.
    Edges,
    /// Around the last bucket's borders.
    Borders,
    /// Each lower than the one before, through the tail down to 0, and again.
    Falling(u32),
}

pub struct Phase {
    left: u32,
    pattern: Pattern,
    times: Times,
    /// One of these is the reflection order of each put.
    reflection_orders: Vec<u32>,
    /// Of ten starts, how many are puts.
    pub enqueues: u32,
    /// A busy worker is frozen once in so many records.
    pub freezes: u32,
    /// A record is meant to be refused once in so many.
    pub refusals: u32,
}

/// The stages of the swaps, and the first one of a search.
const GATHERED: [u64; 6] = [
    stage::SEARCH_HEAD,
    stage::SEARCH_UNLINK,
    stage::ENQUEUE_INSERT,
    stage::ENQUEUE_LOWER,
    stage::DEQUEUE_MARK,
    stage::DEQUEUE_ADVANCE,
];

impl Phase {
    pub fn new(random: &mut Random, shape: Shape) -> Self {
        let worker = |random: &mut Random| random.below(shape.workers) as usize;
        let pattern = match random.below(8) {
            0 | 1 => Pattern::Uniform,
            2 | 3 => Pattern::Bursts { worker: 0, left: 0 },
            4 => Pattern::Pair(worker(random), worker(random)),
            5 | 6 => Pattern::Gather(random.choose(&GATHERED)),
            _ => Pattern::RoundRobin(0),
        };
        let time = times::any(random, shape);
        let times = match random.below(15) {
            0 | 1 => Times::Within,
            2 | 3 => Times::Any,
            4..=8 => Times::Few(times::few(random, shape)),
            9 | 10 => Times::Close(time),
            11 => Times::Edges,
            12 => Times::Borders,
            _ => Times::Falling(time),
        };
        Self {
            left: random.length(9),
            pattern,
            times,
            reflection_orders: reflections::reflection_orders(random),
            enqueues: random.choose(&[3, 5, 5, 6, 9]),
            freezes: random.choose(&[16, 64, 256, 1_000]),
            refusals: random.choose(&[10, 50, 200]),
        }
    }

    /// Counts one record; whether the phase is over.
    pub fn is_over(&mut self) -> bool {
        self.left = self.left.saturating_sub(1);
        self.left == 0
    }

    /// One of the workers that may move; there is at least one.
    pub fn choose(&mut self, random: &mut Random, awake: &[usize], workers: &[Worker]) -> usize {
        let any = random.choose(awake);
        match &mut self.pattern {
            Pattern::Uniform => any,
            Pattern::Bursts { worker, left } => {
                if *left == 0 || !awake.contains(worker) {
                    *worker = any;
                    *left = random.length(6);
                }
                *left -= 1;
                *worker
            }
            Pattern::Pair(first, second) => {
                let one = if random.one_in(2) { *first } else { *second };
                if awake.contains(&one) {
                    one
                } else {
                    any
                }
            }
            Pattern::Gather(stage) => {
                let stage = *stage;
                let apart = awake.iter().copied();
                let apart: Vec<_> = apart.filter(|&i| workers[i].stage != stage).collect();
                if apart.is_empty() || random.one_in(30) {
                    self.pattern = Pattern::Uniform;
                    any
                } else {
                    random.choose(&apart)
                }
            }
            Pattern::RoundRobin(next) => {
                let worker = *awake
                    .iter()
                    .find(|&&worker| worker >= *next)
                    .unwrap_or(&awake[0]);
                *next = worker + 1;
                worker
            }
        }
    }

    /// The time of the next put.
    pub fn time(&mut self, random: &mut Random, shape: Shape) -> u32 {
        match &mut self.times {
            Times::Within => times::within(random, shape),
            Times::Any => times::any(random, shape),
            Times::Few(times) => random.choose(times),
            Times::Close(time) => time.saturating_add(random.below(3)),
            Times::Edges => edge(random, shape),
            Times::Borders => times::near_a_border(random, shape),
            Times::Falling(time) => {
                *time = times::lower(*time, shape);
                *time
            }
        }
    }

    /// The reflection order of the next put.
    pub fn order(&self, random: &mut Random) -> u32 {
        random.choose(&self.reflection_orders)
    }
}

/// The first or last time of a bucket; of the last one also the end of the span.
fn edge(random: &mut Random, shape: Shape) -> u32 {
    let bucket = random.below(shape.buckets);
    let first = bucket * shape.width;
    let last = first + shape.width - 1;
    if bucket + 1 == shape.buckets {
        random.choose(&[first, last, u32::MAX])
    } else {
        random.choose(&[first, last])
    }
}
