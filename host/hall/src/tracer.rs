//! The workers, and the host that deals their turns.

use random::Random;
use wubraken::{Arrival, Dealer, Echogram, Pool, Refusal, Shape, Step, Taken};

use crate::geometry::{Hall, Image, SAMPLES_PER_MILLISECOND};
use crate::trace::{Call, Event, Trace};

/// The echogram has so many.
pub const SLOTS: usize = 40;

/// Who acts next.
#[derive(Clone, Copy, Debug, PartialEq, Eq)]
pub enum Interleaving {
    /// Any worker that can, at random from this seed, by a start or a turn.
    AtRandom(u64),
    /// Whoever is idle begins its next call; a dealer deals the turns.
    Dealt,
}

/// What to trace, with which pool.
#[derive(Clone, Copy, Debug)]
pub struct Job {
    pub hall: Hall,
    /// No reflections beyond this order.
    pub order: u32,
    pub shape: Shape,
    pub interleaving: Interleaving,
    /// Milliseconds of a slot of the echogram; none for the fewest that will do.
    pub slot: Option<u64>,
}

impl Job {
    /// Samples in a slot. The fewest milliseconds by which all arrivals fit are 75 at
    /// most, where the last comes from as far as a pool accepts.
    fn slot_length(&self) -> u64 {
        let milliseconds = self.slot.unwrap_or_else(|| {
            let row_of_milliseconds = SLOTS as u64 * SAMPLES_PER_MILLISECOND;
            u64::from(self.hall.latest(self.order)) / row_of_milliseconds + 1
        });
        milliseconds.saturating_mul(SAMPLES_PER_MILLISECOND)
    }
}

/// Traces a hall until nothing is left; a refusal is one that no worker expects.
pub fn trace(job: &Job) -> Result<Trace, Refusal> {
    let mut host = Host::new(job)?;
    match job.interleaving {
        Interleaving::AtRandom(seed) => host.act_at_random(seed)?,
        Interleaving::Dealt => host.act_as_dealt()?,
    }
    // The low half of word 0.
    host.trace.epochs = host.pool.store()[0] & u64::from(u32::MAX);
    host.trace.slot_length = host.echogram.slot_length();
    host.trace.row = host.echogram.into_row();
    Ok(host.trace)
}

struct Host<'a> {
    job: &'a Job,
    pool: Pool,
    /// Of what was taken so far.
    echogram: Echogram,
    workers: Vec<Worker>,
    moment: usize,
    /// The last moment at which a worker had something to put.
    had_to_put: usize,
    /// A take found the pool empty, and nobody had anything to put since its start;
    /// what other takes may still hold is looked at when they answer.
    nothing_left: bool,
    trace: Trace,
}

#[derive(Clone, Default)]
struct Worker {
    /// Reflections that it has still to put.
    in_hand: Vec<Arrival>,
    call: Option<Begun>,
}

impl Worker {
    /// A put counts until it has ended.
    fn has_to_put(&self) -> bool {
        !self.in_hand.is_empty() || self.call.map_or(false, |begun| begun.put.is_some())
    }
}

/// A call in progress.
#[derive(Clone, Copy)]
struct Begun {
    ticket: u64,
    start: usize,
    /// None for a take.
    put: Option<Arrival>,
}

impl<'a> Host<'a> {
    /// The direct sound is in the first worker's hand.
    fn new(job: &'a Job) -> Result<Self, Refusal> {
        let pool = Pool::new(job.shape)?;
        let echogram = Echogram::new(SLOTS, job.slot_length())?;
        let mut workers = vec![Worker::default(); job.shape.workers as usize];
        workers[0].in_hand.push(job.hall.arrival(Image::DIRECT));
        Ok(Self {
            job,
            pool,
            echogram,
            workers,
            moment: 0,
            had_to_put: 0,
            nothing_left: false,
            trace: Trace::default(),
        })
    }

    fn act_at_random(&mut self, seed: u64) -> Result<(), Refusal> {
        let mut random = Random::new(seed);
        loop {
            let movable = self.movable();
            if movable.is_empty() {
                return Ok(());
            }
            self.act(random.choose(&movable))?;
        }
    }

    /// Each run of turns ends with a call, and then its worker is idle.
    fn act_as_dealt(&mut self) -> Result<(), Refusal> {
        let mut dealer = Dealer::new(self.job.shape);
        loop {
            self.begin_all()?;
            let dealt = match dealer.run(&mut self.pool, u64::MAX) {
                Err(Refusal::AllIdle) => return Ok(()),
                dealt => dealt?,
            };
            self.pass(dealt.turns as usize);
            self.trace.turns += dealt.turns as usize;
            self.answer(dealt.worker as usize, dealt.step?)?;
        }
    }

    /// A put that is too far begins no call.
    fn begin_all(&mut self) -> Result<(), Refusal> {
        let next = |host: &Self| {
            let mut movable = host.movable().into_iter();
            movable.find(|&worker| host.workers[worker].call.is_none())
        };
        while let Some(worker) = next(self) {
            self.act(worker)?;
        }
        Ok(())
    }

    /// The workers that have a call to end, something to put or to look for.
    fn movable(&self) -> Vec<usize> {
        let can_move =
            |worker: &Worker| worker.call.is_some() || worker.has_to_put() || !self.nothing_left;
        let all = 0..self.workers.len();
        all.filter(|&index| can_move(&self.workers[index]))
            .collect()
    }

    /// One turn of a worker, or the start of its next call.
    fn act(&mut self, worker: usize) -> Result<(), Refusal> {
        self.pass(1);
        match self.workers[worker].call {
            Some(_) => self.turn(worker),
            None => match self.workers[worker].in_hand.pop() {
                Some(arrival) => self.start_put(worker, arrival),
                None => self.start_take(worker),
            },
        }
    }

    /// So many moments, in which nobody's hands change.
    fn pass(&mut self, moments: usize) {
        self.moment += moments;
        if self.workers.iter().any(Worker::has_to_put) {
            self.had_to_put = self.moment;
        }
    }

    fn turn(&mut self, worker: usize) -> Result<(), Refusal> {
        self.trace.turns += 1;
        match self.pool.step(worker as u64)? {
            Step::On => Ok(()),
            end => self.answer(worker, end),
        }
    }

    /// A worker's call has ended.
    fn answer(&mut self, worker: usize, end: Step) -> Result<(), Refusal> {
        let begun = self.workers[worker].call.take();
        let begun = begun.expect("the worker has begun a call");
        let event = match (end, begun.put) {
            (Step::Stored(_), Some(arrival)) => Event::Put(arrival),
            (Step::Took(taken), None) => Event::Took(taken),
            (Step::Empty, None) => Event::Empty,
            (other, _) => panic!("{other:?} is the answer to another call"),
        };
        self.trace.calls.push(Call {
            worker: worker as u64,
            ticket: begun.ticket,
            start: begun.start,
            end: self.moment,
            event,
        });
        match event {
            Event::Put(_) => {}
            Event::Took(taken) => {
                self.record(&taken)?;
                self.reflect(worker, taken);
            }
            Event::Empty => self.nothing_left |= begun.start > self.had_to_put,
        }
        Ok(())
    }

    /// What the echogram cannot take is counted.
    fn record(&mut self, taken: &Taken) -> Result<(), Refusal> {
        match self.echogram.record_taken(taken) {
            Err(Refusal::PastRow) => self.trace.past_row += 1,
            Err(Refusal::SumTooLarge) => self.trace.sum_too_large += 1,
            recorded => recorded?,
        }
        Ok(())
    }

    fn reflect(&mut self, worker: usize, taken: Taken) {
        self.nothing_left = false;
        if taken.order < self.job.order {
            for image in Image::from_path(taken.path).reflections() {
                self.workers[worker]
                    .in_hand
                    .push(self.job.hall.arrival(image));
            }
        }
    }

    fn start_put(&mut self, worker: usize, arrival: Arrival) -> Result<(), Refusal> {
        match self.pool.enqueue(worker as u64, arrival) {
            Ok(ticket) => {
                let node = self.pool.table()[worker].own;
                self.trace.nodes.insert(node);
                self.begin(worker, ticket, Some(arrival));
                Ok(())
            }
            // Of its fields only the distance can be outside its limits.
            Err(Refusal::BadArrival) => {
                self.trace.too_far += 1;
                Ok(())
            }
            // A take makes room; waiting might not, if all workers wait.
            Err(Refusal::NoNode) => {
                self.trace.no_node += 1;
                self.workers[worker].in_hand.push(arrival);
                self.start_take(worker)
            }
            Err(unexpected) => Err(unexpected),
        }
    }

    fn start_take(&mut self, worker: usize) -> Result<(), Refusal> {
        let ticket = self.pool.dequeue(worker as u64)?;
        self.begin(worker, ticket, None);
        Ok(())
    }

    fn begin(&mut self, worker: usize, ticket: u64, put: Option<Arrival>) {
        self.workers[worker].call = Some(Begun {
            ticket,
            start: self.moment,
            put,
        });
    }
}
