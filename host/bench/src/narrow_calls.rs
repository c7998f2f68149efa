//! Narrow calls: starts and turns beside the second program's, the turn by itself,
//! and the start of a put.

use std::time::Duration;

use second::layout::{field, node_at, LAST_ALLOCATED};
use second::{Answer, Program, Record, Response};
use wubraken::{Pool, Put, Shape, Step, Take, Worker};

use crate::report::{heading, row, Target};
use crate::shapes::{ARRIVAL, LARGEST, SMALLEST};
use crate::timing::{best, cycles_in_a_millisecond, nanoseconds_each, time, unknown, SHORT};

pub fn run(rounds: usize) {
    heading(
        "Narrow calls: nanoseconds a start or turn, ours and the second program's",
        "(a put of 5 turns and a take of 7, alone in the pool; ours by the Rust wrapper, one call a\n \
         start and a turn; the second program's by a pointer to a function that takes a record out,\n \
         does the turn by value and puts it back, and looks at no other memory. ratio: how many of\n \
         its turns ours takes)",
    );
    let most_for_one = Shape {
        workers: 1,
        ..LARGEST
    };
    for (name, shape) in [
        ("smallest shape", SMALLEST),
        ("largest shape, one worker", most_for_one),
    ] {
        let [step, run, other] = cycle(rounds, shape);
        row(name, [step, other], "ns", step / other, Target::AtMost(2.5));
        println!("    in two runs, a call each: {run:.1} ns a start or turn");
    }
    let [smallest, largest] = [SMALLEST, LARGEST].map(Turns::new);
    let [smallest, largest] = flat(rounds, smallest, largest);
    let name = "turns alone, largest and smallest";
    let ratio = largest / smallest;
    row(name, [largest, smallest], "ns", ratio, Target::AtMost(1.1));

    heading(
        "The start of a put by a narrow call: nanoseconds",
        "(4,096 nodes, of which the next is free; all other workers have a call in progress)",
    );
    for workers in [1, 4, 16, 64] {
        let start = put_start(rounds, workers);
        let target = Target::AtMost(200.0).beside(start);
        let name = format!("workers: {workers}");
        println!("  {name:<36}{start:>9.1} ns    ({target})");
    }
}

/// Of a put and of a take.
const TURNS: [usize; 2] = [5, 7];
const STARTS_AND_TURNS: usize = 2 + TURNS[0] + TURNS[1];

/// Nanoseconds of a start or turn of a put and a take: by our steps, by our runs, and
/// by the second program.
fn cycle(rounds: usize, shape: Shape) -> [f64; 3] {
    let [mut ours, mut runs] = [(); 2].map(|()| open(shape));
    let mut second = Second::new(shape);
    let cycles = cycles_in_a_millisecond(|| time_steps(&mut ours, 1));
    best(
        SHORT * rounds,
        [
            &mut || vec![time_steps(&mut ours, cycles)],
            &mut || vec![time_runs(&mut runs, cycles)],
            &mut || vec![second.time(cycles)],
        ],
    )
    .map(|time| nanoseconds_each(time, cycles * STARTS_AND_TURNS))
}

fn open(shape: Shape) -> Pool {
    Pool::new(shape).expect("the shape is within its limits")
}

/// Turns that go on, until one does not.
fn time_steps(pool: &mut Pool, cycles: usize) -> Duration {
    let mut on = 0;
    let time = time(|| {
        for _ in 0..cycles {
            pool.enqueue(0, ARRIVAL).expect("a node is free");
            while let Ok(Step::On) = pool.step(0) {
                on += 1;
            }
            pool.dequeue(0).expect("the worker is idle");
            while let Ok(Step::On) = pool.step(0) {
                on += 1;
            }
        }
    });
    assert_eq!(on, cycles * (STARTS_AND_TURNS - 4));
    time
}

fn time_runs(pool: &mut Pool, cycles: usize) -> Duration {
    let mut ended = 0;
    let time = time(|| {
        for _ in 0..cycles {
            let put = pool.put(0, ARRIVAL, u64::MAX);
            ended += usize::from(matches!(put, Ok(Put::Stored(_))));
            let take = pool.take(0, u64::MAX);
            ended += usize::from(matches!(take, Ok(Take::Took(_))));
        }
    });
    assert_eq!(ended, 2 * cycles);
    time
}

/// The second program with a pool of a shape open.
struct Second {
    program: Program,
    put: Record,
    take: Record,
}

impl Second {
    fn new(shape: Shape) -> Self {
        let shape = second::Shape {
            workers: shape.workers as u32,
            nodes: shape.nodes as u32,
            buckets: shape.buckets as u32,
            width: shape.width as u32,
        };
        let mut program = Program::lending(shape.store_words(), shape.workers as usize);
        let opened = program.apply(Record::Open(shape));
        assert_eq!(opened, Ok(Response::Open));
        let arrival = second::Arrival {
            time: ARRIVAL.time,
            path: ARRIVAL.path,
            order: ARRIVAL.order,
            distance: ARRIVAL.distance,
        };
        Self {
            program,
            put: Record::EnqueueStart { worker: 0, arrival },
            take: Record::DequeueStart { worker: 0 },
        }
    }

    fn time(&mut self, cycles: usize) -> Duration {
        let apply: fn(&mut Program, Record) -> Answer = unknown(Program::apply);
        let program = &mut self.program;
        let mut on = 0;
        let time = time(|| {
            for _ in 0..cycles {
                for start in [self.put, self.take] {
                    apply(program, start).expect("the call can begin");
                    while let Ok(Response::On) = apply(program, Record::Step { worker: 0 }) {
                        on += 1;
                    }
                }
            }
        });
        assert_eq!(on, cycles * (STARTS_AND_TURNS - 4));
        time
    }
}

/// Nanoseconds of a turn by itself in two pools.
fn flat(rounds: usize, mut first: Turns, mut second: Turns) -> [f64; 2] {
    let cycles = cycles_in_a_millisecond(|| first.time(1));
    best(
        SHORT * rounds,
        [&mut || vec![first.time(cycles)], &mut || {
            vec![second.time(cycles)]
        }],
    )
    .map(|time| nanoseconds_each(time, cycles * (STARTS_AND_TURNS - 2)))
}

/// The turns of a put and of a take of its arrival, again and again. What a start
/// writes in between is written by hand.
struct Turns {
    shape: Shape,
    store: Vec<u64>,
    table: Vec<Worker>,
    /// The worker's record when the put has begun, and when the take has.
    begun: [Worker; 2],
}

impl Turns {
    fn new(shape: Shape) -> Self {
        let mut pool = open(shape);
        pool.enqueue(0, ARRIVAL).expect("a node is free");
        let put = pool.table()[0];
        assert!(matches!(pool.run(0, u64::MAX), Ok(Step::Stored(_))));
        pool.dequeue(0).expect("the worker is idle");
        let take = pool.table()[0];
        assert!(matches!(pool.run(0, u64::MAX), Ok(Step::Took(_))));
        let (store, table) = pool.into_parts();
        Self {
            shape,
            store,
            table,
            begun: [put, take],
        }
    }

    fn time(&mut self, cycles: usize) -> Duration {
        let mut on = 0;
        let time = time(|| {
            for _ in 0..cycles {
                // As the start of a put leaves the node.
                self.store[standing(self.shape)] = 1;
                for (begun, turns) in self.begun.iter().zip(TURNS) {
                    self.table[0] = *begun;
                    let (store, table) = (&mut self.store[..], &mut self.table[..]);
                    let mut pool = Pool::resume(self.shape, store, table);
                    for _ in 0..turns {
                        on += usize::from(matches!(pool.step(0), Ok(Step::On)));
                    }
                }
            }
        });
        assert_eq!(on, cycles * (STARTS_AND_TURNS - 4));
        time
    }
}

/// The word that says whether node 0, the first that is handed out, is in use.
fn standing(shape: Shape) -> usize {
    node_at(shape.buckets as usize, 0) + field::RECLAMATION
}

/// Nanoseconds of a put's start, where the next node is free.
fn put_start(rounds: usize, workers: u64) -> f64 {
    let shape = Shape { workers, ..LARGEST };
    let mut pool = open(shape);
    for worker in 1..workers {
        pool.dequeue(worker).expect("the worker is idle");
    }
    let (mut store, mut table) = pool.into_parts();
    let idle = table[0];
    let mut starts = |count: usize| {
        time(|| {
            for _ in 0..count {
                let mut pool = Pool::resume(shape, &mut store[..], &mut table[..]);
                pool.enqueue(0, ARRIVAL).expect("a node is free");
                // As if it had not been.
                table[0] = idle;
                store[LAST_ALLOCATED] = shape.nodes - 1;
                store[standing(shape)] = 0;
            }
        })
    };
    const COUNT: usize = 10_000;
    let [time] = best(SHORT * rounds, [&mut || vec![starts(COUNT)]]);
    nanoseconds_each(time, COUNT)
}
