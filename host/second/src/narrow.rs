//! The narrow calls: starts and turns over lent memory that look only at what they
//! need, by the same rules.
//!
//! Refusal 3 is for the first three words and the worker's record, and at the start
//! of a put for every worker's record. All else may hold anything: a rule takes the
//! words that it finds. Out of range, they are refused once they stand in a record
//! that is looked at.
//!
//! Each call goes on with narrow turns of its worker, at most `turns` of them, until
//! one ends the call or is refused. The last response is the answer; a refusal
//! leaves what the turns before it did.

use crate::pool::Pool;
use crate::ranges::{worker_in_range, workers_in_range};
use crate::response::{Answer, Refusal, Response};
use crate::shape::{Arrival, Shape};
use crate::worker::Worker;

/// Starts a put and goes on with it (refusals 1 to 5, 9, 11 and 12).
pub fn narrow_enqueue_start(
    shape: Shape,
    store: &mut [u64],
    workers: &mut [Worker],
    worker: usize,
    arrival: Arrival,
    turns: u64,
) -> Answer {
    let mut pool = Pool::validated(shape, store, workers, workers_in_range)?;
    let begun = pool.enqueue_start(worker, arrival)?;
    go_on(shape, store, workers, worker, begun, turns)
}

/// Starts a take and goes on with it (refusals 1 to 4, 9 and 11).
pub fn narrow_dequeue_start(
    shape: Shape,
    store: &mut [u64],
    workers: &mut [Worker],
    worker: usize,
    turns: u64,
) -> Answer {
    let begun = pool_of(shape, store, workers, worker)?.dequeue_start(worker)?;
    go_on(shape, store, workers, worker, begun, turns)
}

/// Gives a worker one turn and goes on with its call (refusals 1 to 4, 10 and 11).
pub fn narrow_step(
    shape: Shape,
    store: &mut [u64],
    workers: &mut [Worker],
    worker: usize,
    turns: u64,
) -> Answer {
    let response = step(shape, store, workers, worker)?;
    go_on(shape, store, workers, worker, response, turns)
}

/// Further turns of a worker whose call has answered this.
fn go_on(
    shape: Shape,
    store: &mut [u64],
    workers: &mut [Worker],
    worker: usize,
    mut response: Response,
    mut turns: u64,
) -> Answer {
    while in_progress(response) && turns > 0 {
        response = step(shape, store, workers, worker)?;
        turns -= 1;
    }
    Ok(response)
}

fn in_progress(response: Response) -> bool {
    matches!(response, Response::Begun(_) | Response::On)
}

/// One narrow turn.
fn step(shape: Shape, store: &mut [u64], workers: &mut [Worker], worker: usize) -> Answer {
    pool_of(shape, store, workers, worker)?.step(worker)
}

/// The pool for a call that looks at no record but its worker's.
fn pool_of<'a>(
    shape: Shape,
    store: &'a mut [u64],
    workers: &'a mut [Worker],
    worker: usize,
) -> Result<Pool<'a>, Refusal> {
    Pool::validated(shape, store, workers, |shape, store, workers| {
        worker_in_range(shape, store, workers, worker)
    })
}
