//! Dealt turns in the hold model: by a dealer, and the same starts and turns as a batch.

use std::time::Duration;

use schedule::script::{put_arrival, take, turn};
use wubraken::{Arrival, Dealer, Pool, Step};

use crate::empty_takes;
use crate::engines::{BatchEntry, Engine};
use crate::hold_model::{Draws, Model};
use crate::hold_narrow::{fill, open};
use crate::recorder::Batch;
use crate::report::{heading, Target};
use crate::timing::{best, nanoseconds_each, time};
use crate::whole_deals::WholeDeals;

const WORKERS: [u32; 4] = [1, 4, 16, 64];
const PENDING: [usize; 2] = [64, 512];
/// The target is for so many.
const FEW_WORKERS: u32 = 4;

pub fn run(rounds: usize, holds: usize) {
    heading(
        "Dealt turns: nanoseconds a start or turn in the hold model, by a dealer and by the batch entry",
        "(each worker takes the earliest arrival and puts it back later, and begins its next call as\n \
         soon as one has ended. dealer: runs of narrow dealt turns, through the Rust wrapper, each until\n \
         a call has ended, and a narrow call a start. batch: the same starts and turns as a turn file,\n \
         read, and a line written for each. ratio: how many times as fast as the batch the dealer is.\n \
         whole: runs that look at all lent memory. turns: of a take and a put)",
    );
    println!(" pending workers  turns    dealer     batch  ratio     whole");
    for workers in WORKERS {
        for pending in PENDING {
            contest(rounds, holds, workers, pending);
        }
    }
    println!(
        " Nearly all turns: each worker begins a take, and finds the pool empty behind 256 buckets"
    );
    println!("        workers          dealer     batch  ratio");
    for workers in WORKERS {
        empty_takes::contest(rounds, workers);
    }
}

/// Each with a pool of its own.
struct Contestants {
    pool: Pool,
    entry: BatchEntry,
    whole: WholeDeals,
}

fn contest(rounds: usize, holds: usize, workers: u32, pending: usize) {
    let model = Model::with_spare(workers, pending, 64 * workers);
    // Among many workers a call has many turns; fewer of them will do.
    let share = (workers / FEW_WORKERS).max(1) as usize;
    let count = (holds / share / model.holds).max(1) as u64;
    let runs: Vec<Schedule> = (0..count).map(|seed| Schedule::new(&model, seed)).collect();
    let mut contestants = Contestants {
        pool: open(&model),
        entry: BatchEntry::of(open(&model)),
        whole: WholeDeals::of(open(&model)),
    };
    for run in &runs {
        run.check(&model, &mut contestants);
    }
    let Contestants {
        mut pool,
        mut entry,
        mut whole,
    } = contestants;
    let [dealer, batch, whole] = best(
        rounds,
        [
            &mut || times(&runs, |run| run.time_dealer(&model, &mut pool)),
            &mut || times(&runs, |run| run.time_batch(&mut entry)),
            &mut || times(&runs, |run| run.time_whole(&model, &mut whole)),
        ],
    )
    .map(|time| nanoseconds_each(time, runs.iter().map(|run| run.batch.records.len()).sum()));
    let turns: usize = runs.iter().map(|run| run.batch.turns).sum();
    let turns = turns as f64 / (runs.len() * model.holds) as f64;
    let ratio = batch / dealer;
    print!(
        "{pending:>8}{workers:>8}{turns:>7.1}{dealer:>10.1}{batch:>10.1}{ratio:>7.2}{whole:>10.1}"
    );
    if workers == FEW_WORKERS {
        print!("  ({})", Target::AtLeast(1.0).beside(ratio));
    }
    println!();
}

fn times(runs: &[Schedule], time: impl FnMut(&Schedule) -> Duration) -> Vec<Duration> {
    runs.iter().map(time).collect()
}

/// Begins calls, and deals turns.
pub trait Host {
    fn begin_take(&mut self, worker: u64);

    fn begin_put(&mut self, worker: u64, arrival: Arrival);

    /// Turns until a call has ended: whose it was, and what it took.
    fn run(&mut self) -> (u64, Option<Arrival>);
}

/// Each worker takes, and puts back later what it took, as often as there are
/// increments.
fn hold(host: &mut impl Host, model: &Model, increments: &[u32]) {
    for worker in 0..model.shape.workers.into() {
        host.begin_take(worker);
    }
    let mut increments = increments.iter();
    loop {
        match host.run() {
            (worker, None) => host.begin_take(worker),
            (worker, Some(taken)) => match increments.next() {
                None => break,
                Some(&increment) => {
                    let time = model.later(taken.time, increment);
                    host.begin_put(worker, Arrival { time, ..taken });
                }
            },
        }
    }
}

/// By a dealer, through the wrapper.
pub struct ByDealer<'a> {
    pool: &'a mut Pool,
    dealer: Dealer,
}

impl<'a> ByDealer<'a> {
    pub fn new(pool: &'a mut Pool) -> Self {
        let dealer = Dealer::new(pool.shape());
        Self { pool, dealer }
    }
}

impl Host for ByDealer<'_> {
    #[inline]
    fn begin_take(&mut self, worker: u64) {
        self.pool.dequeue(worker).expect("the worker is idle");
    }

    #[inline]
    fn begin_put(&mut self, worker: u64, arrival: Arrival) {
        self.pool.enqueue(worker, arrival).expect("a node is free");
    }

    #[inline]
    fn run(&mut self) -> (u64, Option<Arrival>) {
        let dealt = self.dealer.run(self.pool, u64::MAX);
        let dealt = dealt.expect("a call is in progress");
        (dealt.worker, taken(dealt.step.expect("an epoch is left")))
    }
}

#[inline]
fn taken(end: Step) -> Option<Arrival> {
    match end {
        Step::Took(taken) => Some(taken.into()),
        _ => None,
    }
}

/// Writes down each start and each turn.
pub struct Written<'a> {
    host: ByDealer<'a>,
    pub batch: Batch,
}

impl<'a> Written<'a> {
    pub fn new(pool: &'a mut Pool) -> Self {
        Self {
            host: ByDealer::new(pool),
            batch: Batch::default(),
        }
    }
}

impl Host for Written<'_> {
    fn begin_take(&mut self, worker: u64) {
        self.batch.push(take(worker as u8));
        self.host.begin_take(worker);
    }

    fn begin_put(&mut self, worker: u64, arrival: Arrival) {
        let written = second::Arrival {
            time: arrival.time,
            path: arrival.path,
            order: arrival.order,
            distance: arrival.distance,
        };
        self.batch.push(put_arrival(worker as u8, written));
        self.host.begin_put(worker, arrival);
    }

    fn run(&mut self) -> (u64, Option<Arrival>) {
        loop {
            let dealt = self.host.dealer.deal(self.host.pool);
            let dealt = dealt.expect("a call is in progress");
            self.batch.push(turn(dealt.worker as u8));
            match dealt.step.expect("an epoch is left") {
                Step::On => {}
                end => return (dealt.worker, taken(end)),
            }
        }
    }
}

/// A run of the hold model: what is random in it, and what the dealer makes of that.
struct Schedule {
    draws: Draws,
    batch: Batch,
    /// The pool that it leaves.
    left: Pool,
}

impl Schedule {
    fn new(model: &Model, seed: u64) -> Self {
        let draws = model.draws(seed);
        let mut left = filled(model, &draws);
        let mut written = Written::new(&mut left);
        hold(&mut written, model, &draws.increments);
        let batch = written.batch;
        Self { draws, batch, left }
    }

    fn time_dealer(&self, model: &Model, pool: &mut Pool) -> Duration {
        fill(pool, &self.draws);
        time(|| hold(&mut ByDealer::new(pool), model, &self.draws.increments))
    }

    fn time_batch(&self, entry: &mut BatchEntry) -> Duration {
        fill(&mut entry.pool, &self.draws);
        time(|| entry.run(&self.batch.bytes))
    }

    fn time_whole(&self, model: &Model, host: &mut WholeDeals) -> Duration {
        fill(&mut host.pool(), &self.draws);
        host.renew();
        time(|| hold(host, model, &self.draws.increments))
    }

    /// All contestants end in the same memory.
    fn check(&self, model: &Model, Contestants { pool, entry, whole }: &mut Contestants) {
        self.time_dealer(model, pool);
        self.time_batch(entry);
        self.time_whole(model, whole);
        let whole = whole.pool();
        for (store, table) in [
            (pool.store(), pool.table()),
            (entry.pool.store(), entry.pool.table()),
            (whole.store(), whole.table()),
        ] {
            assert!(store == self.left.store(), "another store");
            assert!(table == self.left.table(), "another table");
        }
    }
}

fn filled(model: &Model, draws: &Draws) -> Pool {
    let mut pool = open(model);
    fill(&mut pool, draws);
    pool
}
