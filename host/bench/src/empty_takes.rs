//! Dealt turns by themselves: takes from an empty pool, which walk past all its buckets.

use second::{Record, Shape};
use wubraken::Pool;

use crate::dealt_turns::{ByDealer, Host, Written};
use crate::engines::{BatchEntry, Engine};
use crate::recorder::Batch;
use crate::shapes::of_wrapper;
use crate::timing::{best, nanoseconds_each, time};

/// Records timed at a time, about.
const PIECE: usize = 20_000;
const PIECES: usize = 5;

/// Prints nanoseconds a record, by a dealer and by the batch entry.
pub fn contest(rounds: usize, workers: u32) {
    let shape = Shape {
        workers,
        nodes: 1,
        buckets: Shape::MAX_BUCKETS,
        width: 1,
    };
    let mut pool = Pool::new(of_wrapper(shape)).expect("the shape is within its limits");
    let mut entry = BatchEntry::of(pool.clone());
    let once = write(shape, &mut pool);
    let batch = once.repeated(PIECE);
    let times = batch.records.len() / once.records.len();
    entry.run(&batch.bytes);
    assert!(entry.pool.store() == pool.store() && entry.pool.table() == pool.table());

    let [dealer, batch_entry] = best(
        rounds,
        [
            &mut || {
                let piece = |_| time(|| (0..times).for_each(|_| take_all(&mut pool)));
                (0..PIECES).map(piece).collect()
            },
            &mut || {
                let piece = |_| time(|| entry.run(&batch.bytes));
                (0..PIECES).map(piece).collect()
            },
        ],
    )
    .map(|time| nanoseconds_each(time, PIECES * batch.records.len()));
    let ratio = batch_entry / dealer;
    println!("{workers:>16}{dealer:>17.1}{batch_entry:>10.1}{ratio:>7.2}");
}

/// The turn file of an opening and a take of each worker.
fn write(shape: Shape, pool: &mut Pool) -> Batch {
    let mut written = Written::new(pool);
    written.batch.push(Record::Open(shape));
    take_once(&mut written, shape.workers.into());
    written.batch
}

/// An opening, and a take of each worker.
fn take_all(pool: &mut Pool) {
    pool.reopen(pool.shape()).expect("it fits");
    let workers = pool.shape().workers;
    take_once(&mut ByDealer::new(pool), workers);
}

fn take_once(host: &mut impl Host, workers: u64) {
    (0..workers).for_each(|worker| host.begin_take(worker));
    for _ in 0..workers {
        let (_, taken) = host.run();
        assert!(taken.is_none(), "the pool is empty");
    }
}
