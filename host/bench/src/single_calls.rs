//! Single calls that look at all lent memory, so one pass over it is the measure.

use std::time::Duration;

use wubraken::{Shape, Worker};

use crate::arguments::Arguments;
use crate::report::{heading, row, Target};
use crate::shapes::{ARRIVAL, LARGEST, SMALLEST};
use crate::timing::{best, cycles_in_a_millisecond, keep, nanoseconds_each, time, SHORT};
use crate::whole_calls::WholeCalls;

pub fn run(arguments: &Arguments) {
    heading(
        "Single calls that look at all lent memory: nanoseconds a call, and for one pass over it",
        "(calls: put an arrival and take it again, start by start and turn by turn; every call looks\n \
         at every field of store and table, as refusal 3 asks. A pass adds up all words, two at a\n \
         time; or also finds the greatest; or compares them with a bound, up to the first above it.\n \
         ratio: how many passes a call takes)",
    );
    for (name, shape) in [("smallest", SMALLEST), ("largest", LARGEST)] {
        let mut calls = Calls::new(shape);
        let [mut first, mut second, mut third] = [(); 3].map(|()| Lent::of(&calls.pool));
        let cycles = cycles_in_a_millisecond(|| calls.time(1));
        let passes = cycles * calls.in_a_cycle;
        let [call, sum, greatest, bounded] = best(
            SHORT * arguments.rounds,
            [
                &mut || vec![calls.time(cycles)],
                &mut || vec![first.time(passes, Lent::sum)],
                &mut || vec![second.time(passes, Lent::sum_and_greatest)],
                &mut || vec![third.time(passes, Lent::is_bounded)],
            ],
        )
        .map(|time| nanoseconds_each(time, passes));
        for (pass, time) in [
            ("sum", sum),
            ("sum and greatest", greatest),
            ("compared", bounded),
        ] {
            let name = format!("{name} shape, {pass}");
            row(&name, [call, time], "ns", call / time, Target::AtMost(1.5));
        }
    }
}

/// Nanoseconds of one single call on a fresh pool.
pub fn nanoseconds(shape: Shape, rounds: usize) -> f64 {
    let mut calls = Calls::new(shape);
    let cycles = cycles_in_a_millisecond(|| calls.time(1));
    let [time] = best(SHORT * rounds, [&mut || vec![calls.time(cycles)]]);
    nanoseconds_each(time, cycles * calls.in_a_cycle)
}

/// A pool in which one arrival is put and taken, again and again.
struct Calls {
    pool: WholeCalls,
    /// Starts and turns of a put and a take.
    in_a_cycle: usize,
}

impl Calls {
    fn new(shape: Shape) -> Self {
        let mut calls = Self {
            pool: WholeCalls::open(shape),
            in_a_cycle: 0,
        };
        calls.in_a_cycle = calls.cycle();
        calls
    }

    /// Answers the number of calls.
    fn cycle(&mut self) -> usize {
        self.pool.enqueue(ARRIVAL);
        let put = self.end();
        self.pool.dequeue();
        put + self.end() + 2
    }

    /// Turns until the call has ended.
    fn end(&mut self) -> usize {
        let mut turns = 1;
        while self.pool.step() {
            turns += 1;
        }
        turns
    }

    fn time(&mut self, cycles: usize) -> Duration {
        time(|| {
            for _ in 0..cycles {
                keep(self.cycle() as u64);
            }
        })
    }
}

/// A copy of the memory that a pool was lent.
struct Lent {
    store: Vec<u64>,
    table: Vec<Worker>,
    /// No word is above it.
    bound: u64,
}

impl Lent {
    fn of(pool: &WholeCalls) -> Self {
        let mut lent = Self {
            store: pool.store().to_vec(),
            table: pool.table().to_vec(),
            bound: 0,
        };
        lent.bound = lent.words().max().unwrap_or(0) | 1;
        lent
    }

    fn time(&mut self, passes: usize, pass: fn(&Self) -> u64) -> Duration {
        time(|| {
            for place in 0..passes {
                // So that no pass is like the one before.
                let place = place % self.store.len();
                self.store[place] ^= 1;
                keep(pass(self));
            }
        })
    }

    fn words(&self) -> impl Iterator<Item = u64> + '_ {
        let records = self.table.iter().flat_map(fields);
        self.store.iter().copied().chain(records)
    }

    #[inline(never)]
    fn sum(&self) -> u64 {
        self.words().fold(0, u64::wrapping_add)
    }

    #[inline(never)]
    fn sum_and_greatest(&self) -> u64 {
        let (sum, greatest) = self.words().fold((0u64, 0u64), |(sum, greatest), word| {
            (sum.wrapping_add(word), greatest.max(word))
        });
        sum ^ greatest
    }

    #[inline(never)]
    fn is_bounded(&self) -> u64 {
        let is_bounded = self.words().all(|word| word <= self.bound);
        assert!(is_bounded);
        u64::from(is_bounded)
    }
}

fn fields(record: &Worker) -> [u64; 9] {
    [
        record.stage,
        record.kind,
        record.own,
        record.bucket,
        record.left,
        record.right,
        record.seen,
        record.current,
        record.ticket,
    ]
}
