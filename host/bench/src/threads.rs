//! Threads that share one pool, or one heap, behind a lock.

use std::sync::atomic::{AtomicUsize, Ordering};
use std::sync::{Barrier, Mutex};
use std::thread;
use std::time::{Duration, Instant};

use wubraken::{Arrival, Pool, Put, Refusal, Step, Take, Taken};

use crate::arguments::Arguments;
use crate::heap::Heap;
use crate::hold::{model, PENDING};
use crate::hold_model::{Draws, Model};
use crate::hold_narrow::{empty, fill, open};
use crate::report::heading;
use crate::timing::{best, nanoseconds_each};

const THREADS: usize = 4;

pub fn run(arguments: &Arguments) {
    heading(
        "Four threads in the hold model: nanoseconds of a take and a put, by the clock on the wall",
        "(a Mutex around the pool, locked for a call or for a turn, through the Rust wrapper by narrow\n \
         calls; a Mutex around a BinaryHeap, locked for a call. ratio: how many times as fast as the\n \
         heap the pool is)",
    );
    println!(" pending      heap  a lock a call  ratio  a lock a turn  ratio");
    for pending in PENDING {
        contest(arguments, &model(THREADS as u32, pending));
    }
}

fn contest(arguments: &Arguments, model: &Model) {
    let count = (arguments.holds / model.holds).max(1);
    let runs: Vec<Draws> = (0..count as u64).map(|run| model.draws(run)).collect();
    let [heap, calls, turns] = best(
        arguments.rounds,
        [
            &mut || vec![share_heaps(model, &runs)],
            &mut || vec![share_pools(model, &runs, hold_by_calls)],
            &mut || vec![share_pools(model, &runs, hold_by_turns)],
        ],
    )
    .map(|time| nanoseconds_each(time, count * model.holds));
    let (pending, ratios) = (model.pending, [heap / calls, heap / turns]);
    println!(
        "{pending:>8}{heap:>10.1}{calls:>15.1}{:>7.2}{turns:>15.1}{:>7.2}",
        ratios[0], ratios[1]
    );
}

/// What the threads share in one run, and how many of its holds have been begun.
struct Shared<Q> {
    queue: Mutex<Q>,
    begun: AtomicUsize,
}

impl<Q> Shared<Q> {
    fn new(queue: Q) -> Self {
        Self {
            queue: Mutex::new(queue),
            begun: AtomicUsize::new(0),
        }
    }
}

/// Lets the threads hold, run after run, each the next hold that nobody has begun.
/// How long they take, from the first that begins to the last that ends.
fn share<Q: Send>(
    queues: &[Shared<Q>],
    runs: &[Draws],
    hold: impl Fn(&Mutex<Q>, u64, u32) + Sync,
) -> Duration {
    let barrier = &Barrier::new(THREADS);
    let work = |worker| {
        barrier.wait();
        let start = Instant::now();
        for (shared, run) in queues.iter().zip(runs) {
            let next = || {
                run.increments
                    .get(shared.begun.fetch_add(1, Ordering::Relaxed))
            };
            while let Some(&increment) = next() {
                hold(&shared.queue, worker, increment);
            }
        }
        (start, Instant::now())
    };
    let work = &work;
    let spans: Vec<(Instant, Instant)> = thread::scope(|scope| {
        let workers = 0..THREADS as u64;
        let threads: Vec<_> = workers.map(|it| scope.spawn(move || work(it))).collect();
        let ends = threads.into_iter().map(|thread| thread.join());
        ends.map(|span| span.expect("a thread holds")).collect()
    });
    let first = spans.iter().map(|span| span.0).min();
    let last = spans.iter().map(|span| span.1).max();
    first
        .zip(last)
        .map_or(Duration::ZERO, |(first, last)| last - first)
}

fn share_heaps(model: &Model, runs: &[Draws]) -> Duration {
    let heaps = runs.iter().map(|run| Shared::new(Heap::filled(model, run)));
    let heaps: Vec<_> = heaps.collect();
    let time = share(&heaps, runs, |heap, _, increment| {
        let taken = heap.lock().unwrap().take();
        let mut taken = taken.expect("fewer threads than arrivals");
        taken.time = model.later(taken.time, increment);
        heap.lock().unwrap().put(taken);
    });
    for shared in heaps {
        let heap = shared.queue.into_inner().unwrap();
        assert_eq!(heap.keep_all(), model.pending);
    }
    time
}

/// Takes the earliest and puts it back later by the increment.
type Hold = fn(&Mutex<Pool>, u64, &Model, u32);

fn share_pools(model: &Model, runs: &[Draws], hold: Hold) -> Duration {
    let pools = runs.iter().map(|run| {
        let mut pool = open(model);
        fill(&mut pool, run);
        Shared::new(pool)
    });
    let pools: Vec<_> = pools.collect();
    let time = share(&pools, runs, |pool, worker, increment| {
        hold(pool, worker, model, increment)
    });
    for shared in pools {
        let mut pool = shared.queue.into_inner().unwrap();
        assert_eq!(empty(&mut pool), model.pending);
    }
    time
}

fn later(model: &Model, taken: Taken, increment: u32) -> Arrival {
    let time = model.later(taken.time, increment);
    Arrival {
        time,
        ..taken.into()
    }
}

fn hold_by_calls(pool: &Mutex<Pool>, worker: u64, model: &Model, increment: u32) {
    let take = pool.lock().unwrap().take(worker, u64::MAX);
    let taken = match take.expect("the worker is idle") {
        Take::Took(taken) => taken,
        other => panic!("fewer threads than arrivals, and {other:?}"),
    };
    let put = pool
        .lock()
        .unwrap()
        .put(worker, later(model, taken, increment), u64::MAX);
    assert!(matches!(put, Ok(Put::Stored(_))), "{put:?}");
}

fn hold_by_turns(pool: &Mutex<Pool>, worker: u64, model: &Model, increment: u32) {
    let begun = pool.lock().unwrap().dequeue(worker);
    begun.expect("the worker is idle");
    let taken = match finish(pool, worker) {
        Step::Took(taken) => taken,
        other => panic!("fewer threads than arrivals, and {other:?}"),
    };
    let arrival = later(model, taken, increment);
    loop {
        let begun = pool.lock().unwrap().enqueue(worker, arrival);
        match begun {
            Ok(_) => break,
            // Nodes come free when the calls of the others end.
            Err(Refusal::NoNode) => thread::yield_now(),
            Err(refusal) => panic!("{refusal}"),
        }
    }
    assert!(matches!(finish(pool, worker), Step::Stored(_)));
}

/// A lock a turn, to the end of the call.
fn finish(pool: &Mutex<Pool>, worker: u64) -> Step {
    loop {
        let step = pool.lock().unwrap().step(worker);
        match step.expect("a call is in progress") {
            Step::On => {}
            end => return end,
        }
    }
}
