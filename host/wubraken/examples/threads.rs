//! Threads that share one pool. Each is one worker, and locks the pool for one
//! step at a time, so that the steps of all calls mix as the threads run; or for a
//! whole call, which costs one lock and lets nobody else in until it has ended.
//!
//!     cargo run --release --offline -p wubraken --example threads

use std::sync::Mutex;
use std::thread;

use wubraken::{Arrival, Pool, Refusal, Shape, Step, Take};

/// Steps a worker's call to its end.
fn finish(pool: &Mutex<Pool>, worker: u64) -> Result<Step, Refusal> {
    loop {
        let step = pool.lock().unwrap().step(worker)?;
        if step != Step::On {
            return Ok(step);
        }
    }
}

fn put(pool: &Mutex<Pool>, worker: u64, arrival: Arrival) -> Result<(), Refusal> {
    loop {
        let begun = pool.lock().unwrap().enqueue(worker, arrival);
        match begun {
            // Nodes come free when the calls of the others end.
            Err(Refusal::NoNode) => thread::yield_now(),
            Err(refusal) => return Err(refusal),
            Ok(_) => return finish(pool, worker).map(drop),
        }
    }
}

fn take(pool: &Mutex<Pool>, worker: u64) -> Result<Option<Arrival>, Refusal> {
    pool.lock().unwrap().dequeue(worker)?;
    match finish(pool, worker)? {
        Step::Took(taken) => Ok(Some(taken.into())),
        _ => Ok(None),
    }
}

/// A put under one lock. With all calls under one, nodes come free when arrivals
/// are taken.
fn put_in_one_go(pool: &Mutex<Pool>, worker: u64, arrival: Arrival) -> Result<(), Refusal> {
    loop {
        let put = pool.lock().unwrap().put(worker, arrival, u64::MAX);
        match put {
            Err(Refusal::NoNode) => thread::yield_now(),
            Err(refusal) => return Err(refusal),
            Ok(_) => return Ok(()),
        }
    }
}

/// A take under one lock.
fn take_in_one_go(pool: &Mutex<Pool>, worker: u64) -> Result<Option<Arrival>, Refusal> {
    match pool.lock().unwrap().take(worker, u64::MAX)? {
        Take::Took(taken) => Ok(Some(taken.into())),
        _ => Ok(None),
    }
}

/// How a thread puts and takes.
#[derive(Clone, Copy)]
struct Way {
    put: fn(&Mutex<Pool>, u64, Arrival) -> Result<(), Refusal>,
    take: fn(&Mutex<Pool>, u64) -> Result<Option<Arrival>, Refusal>,
}

const A_LOCK_A_STEP: Way = Way { put, take };

const A_LOCK_A_CALL: Way = Way {
    put: put_in_one_go,
    take: take_in_one_go,
};

/// How many arrivals each worker puts in.
const ARRIVALS: u32 = 1_000;

/// A worker puts arrivals in and, after each, takes the earliest out, its own or
/// another's. There always is one: nobody takes more than he has put.
fn work(pool: &Mutex<Pool>, worker: u64, way: Way) -> Result<Vec<Arrival>, Refusal> {
    let mut taken = Vec::new();
    for nth in 0..ARRIVALS {
        (way.put)(pool, worker, arrival(worker as u32 * ARRIVALS + nth))?;
        taken.extend((way.take)(pool, worker)?);
    }
    Ok(taken)
}

/// An arrival of this path, at any time.
fn arrival(path: u32) -> Arrival {
    Arrival {
        time: path * 7 % 160,
        path,
        order: 1,
        distance: 3,
    }
}

/// Four threads, each with the way of its worker, until all has been put and taken.
fn share(name: &str, ways: [Way; 4]) -> Result<(), Refusal> {
    let shape = Shape {
        workers: 4,
        nodes: 16,
        buckets: 16,
        width: 10,
    };
    let pool = Mutex::new(Pool::new(shape)?);

    let taken = thread::scope(|scope| {
        let pool = &pool;
        let work = |worker| scope.spawn(move || work(pool, worker, ways[worker as usize]));
        let threads = [0, 1, 2, 3].map(work);
        threads.map(|thread| thread.join().unwrap())
    });

    let mut taken = taken.into_iter().collect::<Result<Vec<_>, _>>()?.concat();
    taken.sort_by_key(|arrival| arrival.path);
    let put: Vec<Arrival> = (0..4 * ARRIVALS).map(arrival).collect();
    assert_eq!(taken, put);
    assert_eq!(take(&pool, 0)?, None);
    println!(
        "{name}: 4 threads put {} arrivals in, and took the same out",
        put.len()
    );
    Ok(())
}

pub fn main() -> Result<(), Refusal> {
    let (step, call) = (A_LOCK_A_STEP, A_LOCK_A_CALL);
    share("a lock a step", [step; 4])?;
    share("a lock a call", [call; 4])?;
    share("both in one pool", [step, call, step, call])
}
