//! Records that make a schedule, following the pool they lead to.

use random::Random;
use second::layout::{field, node_at, NODE_WORDS};
use second::{Answer, Arrival, Program, Reclamation, Record, Shape, Worker};

use crate::phase::Phase;
use crate::script::{put_arrival, shape, take, turn};
use crate::{shapes, times};

/// What a schedule may hold.
#[derive(Clone, Copy, Default)]
pub struct Options {
    /// Opens once, at the beginning, and never again.
    pub one_opening: bool,
    /// No records that are meant to be refused.
    pub no_refusals: bool,
    /// Every accepted opening has this shape.
    pub shape: Option<Shape>,
}

/// Makes the records of a seed one by one.
pub struct Generator {
    random: Random,
    options: Options,
    program: Program,
    phase: Phase,
    /// Records made, and for each worker until when it is frozen.
    made: u64,
    frozen: Vec<u64>,
}

impl Generator {
    pub fn new(seed: u64, options: Options) -> Self {
        let mut random = Random::new(seed);
        let phase = Phase::new(&mut random, options.shape.unwrap_or(shape(1, 1, 1, 1)));
        Self {
            random,
            options,
            program: Program::new(),
            phase,
            made: 0,
            frozen: Vec::new(),
        }
    }

    /// The pool after the records applied so far.
    pub fn program(&self) -> &Program {
        &self.program
    }

    pub fn random(&mut self) -> &mut Random {
        &mut self.random
    }

    /// Proposes the next record and applies it.
    pub fn next_record(&mut self) -> (Record, Answer) {
        let record = self.propose();
        (record, self.apply(record))
    }

    /// A record that suits the pool as it is.
    pub fn propose(&mut self) -> Record {
        if !self.program.is_open() {
            return self.before_opening();
        }
        if self.phase.is_over() {
            if !self.options.one_opening && self.random.one_in(40) {
                return self.opening();
            }
            self.phase = Phase::new(&mut self.random, self.program.shape());
        }
        if !self.options.no_refusals && self.random.one_in(self.phase.refusals) {
            return self.refused_record();
        }
        let worker = self.awake_worker();
        if self.worker(worker).is_busy() {
            self.sometimes_freeze(worker);
            return turn(worker as u8);
        }
        self.start(worker as u8)
    }

    /// Follows a record, whether it was proposed or not.
    pub fn apply(&mut self, record: Record) -> Answer {
        let answer = self.program.apply(record);
        self.made += 1;
        if let (Record::Open(shape), Ok(_)) = (record, answer) {
            self.frozen = vec![0; shape.workers as usize];
            self.phase = Phase::new(&mut self.random, shape);
        }
        answer
    }

    fn before_opening(&mut self) -> Record {
        if self.options.no_refusals || self.random.one_in(2) {
            return self.opening();
        }
        let worker = self.random.below(256) as u8;
        match self.random.below(4) {
            0 => {
                let time = self.random.draw() as u32;
                put_arrival(worker, self.arrival(time))
            }
            1 => take(worker),
            2 => turn(worker),
            _ => Record::Open(shapes::outside_limits(&mut self.random)),
        }
    }

    fn opening(&mut self) -> Record {
        let shape = match self.options.shape {
            Some(shape) => shape,
            None => shapes::accepted(&mut self.random),
        };
        Record::Open(shape)
    }

    fn workers(&self) -> &[Worker] {
        &self.program.workers()[..self.program.shape().workers as usize]
    }

    fn worker(&self, worker: usize) -> &Worker {
        &self.program.workers()[worker]
    }

    /// A worker that is not frozen; if all are, the one to wake first.
    fn awake_worker(&mut self) -> usize {
        let workers = 0..self.frozen.len();
        let awake: Vec<usize> = workers.filter(|&i| self.frozen[i] <= self.made).collect();
        if awake.is_empty() {
            let first = (0..self.frozen.len()).min_by_key(|&i| self.frozen[i]);
            return first.unwrap_or(0);
        }
        let shape = self.program.shape();
        let workers = &self.program.workers()[..shape.workers as usize];
        self.phase.choose(&mut self.random, &awake, workers)
    }

    /// The worker still makes the step at hand, and then pauses in its call.
    fn sometimes_freeze(&mut self, worker: usize) {
        if self.random.one_in(self.phase.freezes) {
            self.frozen[worker] = self.made + u64::from(self.random.length(11));
        }
    }

    /// Sleepers keep nodes resting; without nodes nothing happens.
    fn sometimes_wake_all(&mut self) {
        if self.random.one_in(4) {
            self.frozen.fill(0);
        }
    }

    fn start(&mut self, worker: u8) -> Record {
        let has_free_node = self.has_free_node();
        if !has_free_node {
            self.sometimes_wake_all();
        }
        let wants_enqueue = self.random.below(10) < self.phase.enqueues;
        let may_be_refused = !self.options.no_refusals && self.random.one_in(8);
        if wants_enqueue && (has_free_node || may_be_refused) {
            let shape = self.program.shape();
            let time = self.phase.time(&mut self.random, shape);
            let arrival = self.arrival(time);
            return put_arrival(worker, arrival);
        }
        take(worker)
    }

    fn has_free_node(&self) -> bool {
        let shape = self.program.shape();
        let busy = self.workers().iter().filter(|worker| worker.is_busy());
        let oldest = busy.map(|worker| worker.ticket).min();
        let first = node_at(shape.buckets as usize, 0);
        self.program.store()[first..shape.store_words()]
            .chunks_exact(NODE_WORDS)
            .any(|node| Reclamation::from_word(node[field::RECLAMATION]).is_free(oldest))
    }

    /// Its path often tells it from others of its time and order.
    fn arrival(&mut self, time: u32) -> Arrival {
        let any_path = self.random.between(0, Arrival::MAX_PATH);
        Arrival {
            time,
            path: self
                .random
                .choose(&[0, 7, Arrival::MAX_PATH, any_path, any_path, any_path]),
            order: self.phase.order(&mut self.random),
            distance: self.random.between(1, Arrival::MAX_DISTANCE),
        }
    }

    /// A record for one of the refusals, if the pool allows it just now.
    fn refused_record(&mut self) -> Record {
        let shape = self.program.shape();
        let some = self.random.below(shape.workers) as u8;
        let time = times::any(&mut self.random, shape);
        match self.random.below(8) {
            0 => Record::Open(shapes::outside_limits(&mut self.random)),
            1 => Record::Open(shapes::too_large(&mut self.random)),
            2 => self.no_such_worker(time),
            3 => self.bad_arrival(some, time),
            4 => {
                let busy = self.one_worker(Worker::is_busy).unwrap_or(some);
                self.bad_arrival(busy, time)
            }
            5 => self.start_on(some, time),
            6 => {
                let busy = self.one_worker(Worker::is_busy).unwrap_or(some);
                self.start_on(busy, time)
            }
            _ => turn(self.one_worker(|worker| !worker.is_busy()).unwrap_or(some)),
        }
    }

    /// One of the workers of which this is so.
    fn one_worker(&mut self, is_so: fn(&Worker) -> bool) -> Option<u8> {
        let workers = self.workers();
        let found: Vec<_> = (0..workers.len()).filter(|&i| is_so(&workers[i])).collect();
        (!found.is_empty()).then(|| self.random.choose(&found) as u8)
    }

    fn no_such_worker(&mut self, time: u32) -> Record {
        let workers = self.program.shape().workers;
        let beyond =
            self.random
                .choose(&[workers, workers + 1, Shape::MAX_WORKERS, 128, 255]) as u8;
        match self.random.below(4) {
            0 | 1 => self.start_on(beyond, time),
            2 => self.bad_arrival(beyond, time),
            _ => turn(beyond),
        }
    }

    fn bad_arrival(&mut self, worker: u8, time: u32) -> Record {
        let mut arrival = self.arrival(time);
        if self.random.one_in(3) {
            arrival.order = self.random.between(Arrival::MAX_ORDER + 1, 255);
        } else {
            arrival.distance = self.random.choose(&[0, Arrival::MAX_DISTANCE + 1, 65_535]);
        }
        put_arrival(worker, arrival)
    }

    fn start_on(&mut self, worker: u8, time: u32) -> Record {
        if self.random.one_in(2) {
            put_arrival(worker, self.arrival(time))
        } else {
            take(worker)
        }
    }
}
