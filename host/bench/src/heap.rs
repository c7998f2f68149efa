//! The hold model on Rust's BinaryHeap: each call in one go.

use std::cmp::{Ordering, Reverse};
use std::collections::BinaryHeap;
use std::time::{Duration, Instant};

use schedule::script::arrival;
use second::{Arrival, Record};

use crate::hold_model::{fold, Draws, Model, Starts};
use crate::timing::keep;

/// An arrival with its call's number, the fields the pool keeps.
#[derive(Clone, Copy)]
pub struct Pending {
    pub time: u32,
    ticket: u32,
    path: u32,
    order: u32,
    distance: u32,
}

impl Pending {
    /// Before it has its number.
    fn new(arrival: Arrival) -> Self {
        Self {
            time: arrival.time,
            ticket: 0,
            path: arrival.path,
            order: arrival.order,
            distance: arrival.distance,
        }
    }

    /// The pool's.
    fn key(&self) -> (u32, u32, u32) {
        (self.time, self.order, self.ticket)
    }

    /// A use of what is no key.
    fn rest(&self) -> u64 {
        u64::from(self.path + self.distance)
    }
}

impl PartialEq for Pending {
    fn eq(&self, other: &Self) -> bool {
        self.key() == other.key()
    }
}

impl Eq for Pending {}

impl PartialOrd for Pending {
    fn partial_cmp(&self, other: &Self) -> Option<Ordering> {
        Some(self.cmp(other))
    }
}

impl Ord for Pending {
    fn cmp(&self, other: &Self) -> Ordering {
        self.key().cmp(&other.key())
    }
}

/// A heap, and how many puts it has seen.
pub struct Heap {
    heap: BinaryHeap<Reverse<Pending>>,
    ticket: u32,
}

impl Heap {
    fn with_capacity(arrivals: usize) -> Self {
        Self {
            heap: BinaryHeap::with_capacity(arrivals),
            ticket: 0,
        }
    }

    /// With the first arrivals of a run.
    pub fn filled(model: &Model, run: &Draws) -> Self {
        let mut heap = Self::with_capacity(model.pending);
        for &time in &run.times {
            heap.put(Pending::new(arrival(time)));
        }
        heap
    }

    /// Under the next number.
    pub fn put(&mut self, pending: Pending) {
        self.ticket += 1;
        let ticket = self.ticket;
        self.heap.push(Reverse(Pending { ticket, ..pending }));
    }

    pub fn take(&mut self) -> Option<Pending> {
        self.heap.pop().map(|Reverse(pending)| pending)
    }

    /// Uses all that is left; how much that is.
    pub fn keep_all(&self) -> usize {
        let left = self.heap.iter();
        keep(left.map(|Reverse(it)| it.rest()).sum());
        self.heap.len()
    }

    /// The fold of the times taken, behind those before.
    fn replay(&mut self, starts: &[Record], mut sum: u64) -> u64 {
        let mut rest = 0;
        for &start in starts {
            match start {
                Record::EnqueueStart { arrival, .. } => self.put(Pending::new(arrival)),
                Record::DequeueStart { .. } => {
                    if let Some(taken) = self.take() {
                        sum = fold(sum, taken.time);
                        rest += taken.rest();
                    }
                }
                Record::Open(_) => self.heap.clear(),
                Record::Step { .. } => {}
            }
        }
        keep(rest);
        sum
    }
}

/// How long the holds of each run take, and the fold of the times taken.
pub fn hold(model: &Model, runs: &[Draws]) -> (Vec<Duration>, u64) {
    let mut elapsed = Vec::new();
    let mut sum = 0;
    for run in runs {
        let mut heap = Heap::filled(model, run);
        let start = Instant::now();
        for &increment in &run.increments {
            if let Some(mut taken) = heap.take() {
                sum = fold(sum, taken.time);
                taken.time = model.later(taken.time, increment);
                heap.put(taken);
            }
        }
        elapsed.push(start.elapsed());
        assert_eq!(heap.keep_all(), model.pending);
    }
    keep(sum);
    (elapsed, sum)
}

/// How long the holding of each run takes, start by start, and the fold of the times
/// taken.
pub fn by_starts(model: &Model, runs: &[Starts]) -> (Vec<Duration>, u64) {
    let mut heap = Heap::with_capacity(model.shape.nodes as usize);
    let mut elapsed = Vec::new();
    let mut sum = 0;
    for run in runs {
        heap.replay(&run.filling, 0);
        let start = Instant::now();
        sum = heap.replay(&run.holding, sum);
        elapsed.push(start.elapsed());
    }
    heap.keep_all();
    keep(sum);
    (elapsed, sum)
}
