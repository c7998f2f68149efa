//! The entry points over lent memory, and the pool they hand it to.

use crate::ranges::in_range;
use crate::response::{Answer, Refusal, Response};
use crate::shape::{Arrival, Shape};
use crate::steps;
use crate::store::Store;
use crate::worker::Worker;

/// Opens a pool in lent memory, whatever that held (refusals 1 and 2).
pub fn open(shape: Shape, store: &mut [u64], workers: &mut [Worker]) -> Answer {
    check_lengths(shape, store, workers)?;
    Pool::trusted(shape, store, workers).reset();
    Ok(Response::Open)
}

/// Starts a put (refusals 1 to 5, 9, 11 and 12).
pub fn enqueue_start(
    shape: Shape,
    store: &mut [u64],
    workers: &mut [Worker],
    worker: usize,
    arrival: Arrival,
) -> Answer {
    Pool::validated(shape, store, workers, in_range)?.enqueue_start(worker, arrival)
}

/// Starts a take (refusals 1 to 4, 9 and 11).
pub fn dequeue_start(
    shape: Shape,
    store: &mut [u64],
    workers: &mut [Worker],
    worker: usize,
) -> Answer {
    Pool::validated(shape, store, workers, in_range)?.dequeue_start(worker)
}

/// Gives a worker one turn (refusals 1 to 4, 10 and 11).
pub fn step(shape: Shape, store: &mut [u64], workers: &mut [Worker], worker: usize) -> Answer {
    Pool::validated(shape, store, workers, in_range)?.step(worker)
}

/// Refusals 1 and 2, in this order: the needed length of a shape within its
/// limits cannot overflow.
fn check_lengths(shape: Shape, store: &[u64], workers: &[Worker]) -> Result<(), Refusal> {
    if !shape.is_within_limits() {
        return Err(Refusal::ShapeOutsideLimits);
    }
    if store.len() < shape.store_words() || workers.len() < shape.workers as usize {
        return Err(Refusal::MemoryTooShort);
    }
    Ok(())
}

/// Memory that fits its shape, cut to the shape's layout and workers; what refusal 3
/// looks at is in range. The rules are written on this.
pub(crate) struct Pool<'a> {
    pub shape: Shape,
    pub store: Store<'a>,
    pub workers: &'a mut [Worker],
}

impl<'a> Pool<'a> {
    /// For memory from anywhere: checks 1, 2 and 3. How much 3 looks at depends on
    /// the call.
    pub fn validated(
        shape: Shape,
        store: &'a mut [u64],
        workers: &'a mut [Worker],
        is_in_range: impl FnOnce(Shape, &[u64], &[Worker]) -> bool,
    ) -> Result<Self, Refusal> {
        check_lengths(shape, store, workers)?;
        if !is_in_range(shape, store, workers) {
            return Err(Refusal::FieldOutOfRange);
        }
        Ok(Self::trusted(shape, store, workers))
    }

    /// For memory known to come from an opening of this shape, where 1, 2 and 3
    /// cannot occur; and for the opening itself.
    pub fn trusted(shape: Shape, store: &'a mut [u64], workers: &'a mut [Worker]) -> Self {
        Self {
            shape,
            store: Store::new(shape, store),
            workers: &mut workers[..shape.workers as usize],
        }
    }

    /// Opening.
    pub fn reset(&mut self) {
        self.store.reset();
        self.workers.fill(Worker::default());
    }

    /// One turn: copies the record out, steps it, and stores it back.
    pub fn step(&mut self, worker: usize) -> Answer {
        let record = self.worker(worker)?;
        let (record, answer) = steps::step(&mut self.store, record);
        self.workers[worker] = record;
        answer
    }

    /// The record of a worker of the shape (refusal 4).
    pub fn worker(&self, worker: usize) -> Result<Worker, Refusal> {
        self.workers
            .get(worker)
            .copied()
            .ok_or(Refusal::NoSuchWorker)
    }
}
