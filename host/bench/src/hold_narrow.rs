//! The hold model on the pool by narrow calls, through the Rust wrapper.

use std::time::{Duration, Instant};

use second::Record;
use wubraken::{Arrival, Pool, Put, Refusal, Step, Take, Worker};

use crate::hold_model::{fold, latest_first, Draws, Model, Run, Starts};
use crate::shapes::of_wrapper;
use crate::timing::keep;

/// How long the holds of each run take, each start and each turn by a call of its
/// own, as they stand in the turn file; and the fold of the times taken.
pub fn by_turns(model: &Model, runs: &[Run]) -> (Vec<Duration>, u64) {
    let mut pool = open(model);
    let mut elapsed = Vec::new();
    let mut sum = 0;
    for run in runs {
        replay(&mut pool, &run.filling.records, 0);
        let start = Instant::now();
        sum = replay(&mut pool, &run.holding.records, sum);
        elapsed.push(start.elapsed());
    }
    keep(sum);
    (elapsed, sum)
}

/// The fold of the times taken, behind those before.
fn replay(pool: &mut Pool, records: &[Record], mut sum: u64) -> u64 {
    for &record in records {
        match record {
            Record::Step { worker } => {
                if let Step::Took(taken) = pool.step(worker.into()).expect("a turn is due") {
                    sum = fold(sum, taken.time);
                }
            }
            Record::DequeueStart { worker } => {
                pool.dequeue(worker.into()).expect("the worker is idle");
            }
            Record::EnqueueStart { worker, arrival } => {
                match pool.enqueue(worker.into(), arrival_of_wrapper(arrival)) {
                    Ok(_) | Err(Refusal::NoNode) => {}
                    Err(refusal) => panic!("{refusal}"),
                }
            }
            Record::Open(shape) => pool.reopen(of_wrapper(shape)).expect("it fits"),
        }
    }
    sum
}

/// How long the holds of each run take, each put and each take in one go, by one
/// worker; and the fold of the times taken.
pub fn by_calls(model: &Model, runs: &[Draws]) -> (Vec<Duration>, u64) {
    let mut pool = open(model);
    let mut elapsed = Vec::new();
    let mut sum = 0;
    for run in runs {
        fill(&mut pool, run);
        let start = Instant::now();
        for &increment in &run.increments {
            if let Take::Took(taken) = pool.take(0, u64::MAX).expect("the worker is idle") {
                sum = fold(sum, taken.time);
                let later = model.later(taken.time, increment);
                put(
                    &mut pool,
                    0,
                    Arrival {
                        time: later,
                        ..taken.into()
                    },
                );
            }
        }
        elapsed.push(start.elapsed());
        assert_eq!(empty(&mut pool), model.pending);
    }
    keep(sum);
    (elapsed, sum)
}

/// How long the holding of each run takes, each start and its turns in one go; and
/// the fold of the times taken.
pub fn by_starts(model: &Model, runs: &[Starts]) -> (Vec<Duration>, u64) {
    let mut pool = open(model);
    let mut elapsed = Vec::new();
    let mut sum = 0;
    for run in runs {
        replay_starts(&mut pool, &run.filling, 0);
        let start = Instant::now();
        sum = replay_starts(&mut pool, &run.holding, sum);
        elapsed.push(start.elapsed());
    }
    keep(sum);
    (elapsed, sum)
}

fn replay_starts(pool: &mut Pool, starts: &[Record], mut sum: u64) -> u64 {
    for &start in starts {
        match start {
            Record::EnqueueStart { worker, arrival } => {
                put(pool, worker.into(), arrival_of_wrapper(arrival));
            }
            Record::DequeueStart { worker } => {
                let take = pool.take(worker.into(), u64::MAX);
                if let Take::Took(taken) = take.expect("the worker is idle") {
                    sum = fold(sum, taken.time);
                }
            }
            Record::Open(shape) => pool.reopen(of_wrapper(shape)).expect("it fits"),
            Record::Step { .. } => {}
        }
    }
    sum
}

fn arrival_of_wrapper(arrival: second::Arrival) -> Arrival {
    Arrival {
        time: arrival.time,
        path: arrival.path,
        order: arrival.order,
        distance: arrival.distance,
    }
}

pub fn open(model: &Model) -> Pool {
    Pool::new(of_wrapper(model.shape)).expect("the shape is within its limits")
}

/// Opens the pool again and puts the first arrivals of a run in.
pub fn fill<S, T>(pool: &mut Pool<S, T>, run: &Draws)
where
    S: AsMut<[u64]>,
    T: AsMut<[Worker]>,
{
    pool.reopen(pool.shape()).expect("it fits");
    for time in latest_first(run.times.clone()) {
        let arrival = Arrival {
            time,
            path: 7,
            order: 1,
            distance: 3,
        };
        put(pool, 0, arrival);
    }
}

#[inline]
fn put<S, T>(pool: &mut Pool<S, T>, worker: u64, arrival: Arrival)
where
    S: AsMut<[u64]>,
    T: AsMut<[Worker]>,
{
    let put = pool.put(worker, arrival, u64::MAX).expect("a node is free");
    assert!(matches!(put, Put::Stored(_)));
}

/// Takes everything out: how many there were.
pub fn empty(pool: &mut Pool) -> usize {
    let mut taken = 0;
    while let Take::Took(_) = pool.take(0, u64::MAX).expect("the worker is idle") {
        taken += 1;
    }
    taken
}
