//! The dealer of turns: it remembers the worker that it served last, and gives the next
//! turn to the first one after it, going round, that has a call in progress.
//!
//! A dealt turn is the turn of that worker. One that is refused by 11 counts as dealt:
//! the dealer moves on, and the pool stays as it was. By any other refusal there is no
//! turn, and both stay.
//!
//! A run deals turns one by one, at most so many, until one ends a call or is refused.

use crate::pool::Pool;
use crate::ranges::{in_range, worker_in_range};
use crate::response::{Answer, Refusal, Response};
use crate::shape::Shape;
use crate::worker::Worker;

/// What dealt turns led to.
#[derive(Clone, Copy, Debug, PartialEq, Eq)]
pub struct Dealt {
    /// The worker that the dealer remembers now.
    pub served: usize,
    /// How many turns were dealt.
    pub turns: u64,
    /// Of the last of them, or why there was no other.
    pub answer: Answer,
}

/// What a new dealer remembers: the last worker, so that the first one is next.
pub fn new_dealer(shape: Shape) -> usize {
    (shape.workers as usize).saturating_sub(1)
}

/// Deals one turn (refusals 1 to 4, 11 and 16).
pub fn deal(shape: Shape, store: &mut [u64], workers: &mut [Worker], served: usize) -> Dealt {
    deal_run(shape, store, workers, served, 1)
}

/// Deals turns, of which each looks at all lent memory (refusals 1 to 4, 11 and 16).
pub fn deal_run(
    shape: Shape,
    store: &mut [u64],
    workers: &mut [Worker],
    served: usize,
    turns: u64,
) -> Dealt {
    run(served, turns, |served| {
        Pool::validated(shape, store, workers, in_range)?.deal(served)
    })
}

/// Deals narrow turns: refusal 3 is for the first words, and for the record of the
/// worker to be served, if there is one. Of the others only the stages are read.
pub fn narrow_deal(
    shape: Shape,
    store: &mut [u64],
    workers: &mut [Worker],
    served: usize,
    turns: u64,
) -> Dealt {
    run(served, turns, |served| {
        let looks_fine = |shape: Shape, store: &[u64], workers: &[Worker]| {
            let nobody = shape.workers as usize;
            let next = next_worker(&workers[..nobody], served).unwrap_or(nobody);
            worker_in_range(shape, store, workers, next)
        };
        Pool::validated(shape, store, workers, looks_fine)?.deal(served)
    })
}

/// A dealt turn: whose it was, and what it answered; or why there was none.
type Turn = Result<(usize, Answer), Refusal>;

/// Turns one by one, each handed the worker served before.
fn run(served: usize, most: u64, mut deal: impl FnMut(usize) -> Turn) -> Dealt {
    let mut dealt = Dealt {
        served,
        turns: 0,
        answer: Ok(Response::On),
    };
    while dealt.turns < most && dealt.answer == Ok(Response::On) {
        match deal(dealt.served) {
            Ok((worker, answer)) => {
                dealt = Dealt {
                    served: worker,
                    turns: dealt.turns + 1,
                    answer,
                };
            }
            Err(refusal) => dealt.answer = Err(refusal),
        }
    }
    dealt
}

impl Pool<'_> {
    /// The next worker's turn (refusals 4 and 16). It is idle or unknown in no case: what
    /// it answers is 11, or no refusal.
    fn deal(&mut self, served: usize) -> Turn {
        let worker = next_worker(self.workers, served)?;
        Ok((worker, self.step(worker)))
    }
}

/// Of the workers with a call in progress the one that is nearest behind the one served
/// last, which is itself the farthest.
fn next_worker(workers: &[Worker], served: usize) -> Result<usize, Refusal> {
    if served >= workers.len() {
        return Err(Refusal::NoSuchWorker);
    }
    let steps_behind = |&worker: &usize| (worker + workers.len() - 1 - served) % workers.len();
    let in_progress = (0..workers.len()).filter(|&worker| workers[worker].is_busy());
    in_progress.min_by_key(steps_behind).ok_or(Refusal::AllIdle)
}
