//! The hold model: again and again the earliest arrival is taken, and put back
//! later by a random increment, so that the number of arrivals stays the same.

use schedule::script::{put, take, turn};
use schedule::Random;
use second::{Record, Refusal, Response, Shape};

use crate::recorder::{Batch, Recorder};

/// A pool with so many arrivals. Times do not go round, and behind the span of the
/// buckets all lie in one; so a run ends there, and another one begins.
#[derive(Clone, Copy)]
pub struct Model {
    pub shape: Shape,
    pub pending: usize,
    /// Increments are below this many samples.
    pub spread: u32,
    /// Holds in one run.
    pub holds: usize,
}

/// What is random in a run, the same for all contestants.
pub struct Draws {
    pub times: Vec<u32>,
    pub increments: Vec<u32>,
}

/// A run as turn files: filling the pool, and holding.
pub struct Run {
    pub filling: Batch,
    pub holding: Batch,
    /// Times in the order they were taken.
    pub taken: Vec<u32>,
}

/// The same for one worker that does each call in one go: all records but the turns.
pub struct Starts {
    pub filling: Vec<Record>,
    pub holding: Vec<Record>,
}

impl Run {
    pub fn starts(&self) -> Starts {
        Starts {
            filling: self.filling.starts(),
            holding: self.holding.starts(),
        }
    }
}

impl Model {
    /// As many holds as the span has room for; they move the earliest time by
    /// half the spread in as many holds as there are arrivals.
    pub fn new(shape: Shape, pending: usize, spread: u32) -> Self {
        let room = f64::from(shape.span() - spread) / (f64::from(spread) / 2.0);
        Self {
            shape,
            pending,
            spread,
            holds: (0.9 * room * pending as f64) as usize,
        }
    }

    /// About four arrivals a bucket, as far as half of the buckets go; and nodes to
    /// spare for those that rest.
    pub fn with_spare(workers: u32, pending: usize, spare: u32) -> Self {
        const WIDTH: u32 = 1_000;
        let shape = Shape {
            workers,
            nodes: (pending as u32 + spare).min(Shape::MAX_NODES),
            buckets: Shape::MAX_BUCKETS,
            width: WIDTH,
        };
        let buckets = (pending as u32 / 4).min(shape.buckets / 2);
        Self::new(shape, pending, buckets * WIDTH)
    }

    /// The same with no more holds than this.
    pub fn at_most(self, holds: usize) -> Self {
        Self {
            holds: self.holds.min(holds),
            ..self
        }
    }

    pub fn draws(&self, seed: u64) -> Draws {
        let mut random = Random::new(seed);
        let times = (0..self.pending).map(|_| random.below(self.spread));
        let times = times.collect();
        let increments = (0..self.holds).map(|_| random.below(self.spread));
        Draws {
            times,
            increments: increments.collect(),
        }
    }

    /// The time of an arrival that is put back, at most the last of the span.
    pub fn later(&self, time: u32, increment: u32) -> u32 {
        (time + increment).min(self.shape.span() - 1)
    }

    pub fn run(&self, seed: u64) -> Run {
        let Draws { times, increments } = self.draws(seed);
        let mut recorder = Recorder::open(self.shape);
        for time in latest_first(times) {
            recorder.call(put(0, time));
        }
        let filling = recorder.cut();
        let mut holding = Holding {
            model: self,
            recorder,
            workers: vec![Worker::Ready; self.shape.workers as usize],
            takes: 0,
            puts: 0,
            taken: Vec::new(),
        };
        let mut dealer = Random::new(!seed);
        while holding.is_going_on() {
            let worker = dealer.below(self.shape.workers) as usize;
            holding.act(worker, &increments);
        }
        Run {
            filling,
            holding: holding.recorder.cut(),
            taken: holding.taken,
        }
    }
}

#[derive(Clone, Copy, PartialEq, Eq)]
enum Worker {
    Ready,
    /// With a call in progress.
    Busy,
    /// With an arrival of this time in hand.
    Has(u32),
}

/// Workers that take and put back, turn by turn in a random order.
struct Holding<'a> {
    model: &'a Model,
    recorder: Recorder,
    workers: Vec<Worker>,
    /// Takes started that have not found the pool empty, and puts started.
    takes: usize,
    puts: usize,
    taken: Vec<u32>,
}

impl Holding<'_> {
    fn is_going_on(&self) -> bool {
        self.puts < self.model.holds || self.workers.contains(&Worker::Busy)
    }

    fn act(&mut self, index: usize, increments: &[u32]) {
        let worker = index as u8;
        match self.workers[index] {
            Worker::Busy => {
                let response = self.recorder.record(turn(worker)).expect("a turn is due");
                self.workers[index] = self.after(response);
            }
            Worker::Has(time) => {
                let time = self.model.later(time, increments[self.puts]);
                match self.recorder.record(put(worker, time)) {
                    Ok(_) => {
                        self.puts += 1;
                        self.workers[index] = Worker::Busy;
                    }
                    // Its node comes free when the calls of the others end.
                    Err(Refusal::NoFreeNode) => {}
                    Err(refusal) => panic!("a hold is refused by {}", refusal.number()),
                }
            }
            Worker::Ready if self.takes < self.model.holds => {
                self.recorder
                    .record(take(worker))
                    .expect("a take can start");
                self.takes += 1;
                self.workers[index] = Worker::Busy;
            }
            Worker::Ready => {}
        }
    }

    fn after(&mut self, response: Response) -> Worker {
        match response {
            Response::On => Worker::Busy,
            Response::Took { time, .. } => {
                self.taken.push(time as u32);
                Worker::Has(time as u32)
            }
            Response::Empty => {
                self.takes -= 1;
                Worker::Ready
            }
            _ => Worker::Ready,
        }
    }
}

/// So each goes to the front of its list.
pub fn latest_first(mut times: Vec<u32>) -> Vec<u32> {
    times.sort_unstable_by(|a, b| b.cmp(a));
    times
}

/// A number for times in their order.
pub fn fold(sum: u64, time: u32) -> u64 {
    sum.wrapping_mul(31).wrapping_add(u64::from(time))
}
