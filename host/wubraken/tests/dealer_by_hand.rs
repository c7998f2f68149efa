//! The wrapper's dealer by hand: whom it serves, what it answers, and what refuses it.

mod common;

use common::{shape, ARRIVAL};
use second::layout::{field, head_at, node_at, CURRENT};
use second::word::{link, marked, MAX_COUNT};
use wubraken::{Arrival, Dealer, Dealt, Pool, Refusal, Shape, Step, Taken, Worker};

const SHAPE: Shape = shape(3, 4, 2, 10);

fn open() -> (Pool, Dealer) {
    (Pool::new(SHAPE).unwrap(), Dealer::new(SHAPE))
}

fn dealt(worker: u64, turns: u64, step: Result<Step, Refusal>) -> Result<Dealt, Refusal> {
    Ok(Dealt {
        worker,
        turns,
        step,
    })
}

/// What comes out after [`ARRIVAL`] was put in.
const TOOK: Result<Step, Refusal> = Ok(Step::Took(Taken {
    time: 5,
    path: 7,
    order: 1,
    distance: 3,
    energy: 1_864_135,
}));

const ON: Result<Step, Refusal> = Ok(Step::On);

#[test]
fn a_new_dealer_remembers_the_last_worker() {
    for (workers, served) in [(1, 0), (3, 2), (64, 63), (0, 0), (u64::MAX, u64::MAX - 1)] {
        let shape = shape(workers, 4, 2, 10);
        assert_eq!(Dealer::new(shape).served(), served);
        assert_eq!(Dealer::new(shape), Dealer::resume(served));
    }
}

/// Workers 0 and 2 have calls in progress, then worker 1, too.
#[test]
fn idle_workers_are_passed_over() {
    let (mut pool, mut dealer) = open();
    pool.dequeue(0).unwrap();
    pool.dequeue(2).unwrap();
    for worker in [0, 2, 0] {
        assert_eq!(dealer.deal(&mut pool), dealt(worker, 1, ON));
        assert_eq!(dealer.served(), worker);
    }
    pool.dequeue(1).unwrap();
    for worker in [1, 2, 0] {
        assert_eq!(dealer.deal(&mut pool), dealt(worker, 1, ON));
    }
}

/// A put into bucket 0 has 5 turns, one into bucket 1 has 4.
#[test]
fn a_run_ends_with_a_call() {
    let (mut pool, mut dealer) = open();
    let late = Arrival {
        time: 15,
        ..ARRIVAL
    };
    assert_eq!(pool.enqueue(0, ARRIVAL), Ok(1));
    assert_eq!(pool.enqueue(1, late), Ok(2));
    assert_eq!(dealer.run(&mut pool, 0), dealt(2, 0, ON));
    assert_eq!(dealer.run(&mut pool, 3), dealt(0, 3, ON));
    let stored = |ticket| Ok(Step::Stored(ticket));
    assert_eq!(dealer.run(&mut pool, u64::MAX), dealt(1, 5, stored(2)));
    assert_eq!(dealer.run(&mut pool, u64::MAX), dealt(0, 1, stored(1)));
    let before = pool.clone();
    assert_eq!(dealer.run(&mut pool, u64::MAX), Err(Refusal::AllIdle));
    assert_eq!(dealer.served(), 0);
    assert_eq!(pool.store(), before.store());
    pool.dequeue(2).unwrap();
    assert_eq!(dealer.run(&mut pool, u64::MAX), dealt(2, 7, TOOK));
}

/// Of several the lowest is the answer; dealer and pool stay as they were.
#[test]
fn refusals_in_their_order() {
    let refused = |shape, store: &[u64], table: &[Worker], served| {
        let mut pool = Pool::resume(shape, store.to_vec(), table.to_vec());
        let mut dealer = Dealer::resume(served);
        let refusal = dealer.deal(&mut pool).unwrap_err();
        assert_eq!(dealer.run(&mut pool, u64::MAX), Err(refusal));
        assert_eq!(dealer.served(), served);
        assert_eq!((pool.store(), pool.table()), (store, table));
        assert_eq!(dealer.run(&mut pool, 0), dealt(served, 0, ON));
        refusal
    };
    let (mut store, table) = open().0.into_parts();
    assert_eq!(refused(SHAPE, &store, &table, 0), Refusal::AllIdle);
    for served in [3, 1 << 32, u64::MAX] {
        assert_eq!(refused(SHAPE, &store, &table, served), Refusal::NoWorker);
    }
    store[CURRENT] = u64::MAX;
    assert_eq!(refused(SHAPE, &store, &table, 3), Refusal::OutOfRange);
    assert_eq!(refused(SHAPE, &store[1..], &table, 3), Refusal::TooShort);
    assert_eq!(refused(SHAPE, &store, &table[1..], 3), Refusal::TooShort);
    let bad = Shape { width: 0, ..SHAPE };
    assert_eq!(refused(bad, &store[1..], &table, 3), Refusal::BadShape);
}

/// At the last epoch a put into the current bucket stays at stage 7. The dealer serves
/// it, and moves on: the take beside it ends in its 7 turns.
#[test]
fn at_the_last_epoch() {
    let (mut store, table) = open().0.into_parts();
    store[CURRENT] = MAX_COUNT;
    let mut pool = Pool::resume(SHAPE, store, table);
    let mut dealer = Dealer::new(SHAPE);
    pool.enqueue(0, ARRIVAL).unwrap();
    assert_eq!(dealer.run(&mut pool, 4), dealt(0, 4, ON));
    pool.dequeue(2).unwrap();
    let exhausted = Err(Refusal::Exhausted);
    assert_eq!(dealer.deal(&mut pool), dealt(2, 1, ON));
    for _ in 0..5 {
        let before = pool.clone();
        assert_eq!(dealer.deal(&mut pool), dealt(0, 1, exhausted));
        assert_eq!(dealer.served(), 0);
        assert_eq!(
            (pool.store(), pool.table()),
            (before.store(), before.table())
        );
        assert_eq!(dealer.deal(&mut pool), dealt(2, 1, ON));
    }
    // A run ends there, and the next one begins behind it.
    assert_eq!(dealer.run(&mut pool, u64::MAX), dealt(0, 1, exhausted));
    assert_eq!(dealer.run(&mut pool, u64::MAX), dealt(2, 1, TOOK));
    pool.dequeue(1).unwrap();
    assert_eq!(dealer.run(&mut pool, u64::MAX), dealt(0, 1, exhausted));
    assert_eq!(dealer.run(&mut pool, u64::MAX), dealt(0, 2, exhausted));
    assert_eq!(pool.table()[0].stage, 7);
}

/// A turn that reads a head which leads nowhere is done, and the next one of its worker
/// is refused by 3: the run says how far it got.
#[test]
fn damage_in_the_midst_of_a_run() {
    let (mut store, table) = open().0.into_parts();
    store[head_at(0)] = link(1_000);
    let mut pool = Pool::resume(SHAPE, store, table);
    let mut dealer = Dealer::new(SHAPE);
    pool.dequeue(0).unwrap();
    pool.dequeue(1).unwrap();
    let out_of_range = Err(Refusal::OutOfRange);
    // Two turns each; then worker 0 would be next.
    let run = dealer.run(&mut pool, u64::MAX);
    assert_eq!(run, dealt(1, 4, out_of_range));
    assert_eq!(dealer.run(&mut pool, u64::MAX), Err(Refusal::OutOfRange));
    assert_eq!(dealer.served(), 1);
}

/// A node that no put has had, of distance 0, is unlinked: then it is out of range. The
/// narrow turns of a dealer go on.
#[test]
fn a_node_unlinked_before_it_was_used() {
    let (mut store, mut table) = open().0.into_parts();
    store[head_at(0)] = link(2);
    store[node_at(2, 2) + field::LINK] = marked(link(4));
    table[1] = Worker {
        stage: 3,
        right: 2,
        seen: marked(link(4)),
        ..Worker::default()
    };
    let mut pool = Pool::resume(SHAPE, store, table);
    let mut dealer = Dealer::new(SHAPE);
    assert_eq!(pool.audit(), Ok(()));
    assert_eq!(dealer.deal(&mut pool), dealt(1, 1, ON));
    assert_eq!(pool.audit(), Err(Refusal::OutOfRange));
    assert_eq!(
        dealer.run(&mut pool, u64::MAX),
        dealt(1, 4, Ok(Step::Stored(0)))
    );
}

/// The dealer has no pool of its own, and deals in whatever memory.
#[test]
fn memory_owned_or_borrowed() {
    let (mut store, mut table) = ([9; 40], [Worker::default(); 3]);
    let mut lent = Pool::open(SHAPE, &mut store[..], &mut table[..]).unwrap();
    let (mut own, mut dealer) = open();
    own.dequeue(1).unwrap();
    lent.dequeue(2).unwrap();
    assert_eq!(dealer.deal(&mut own), dealt(1, 1, ON));
    assert_eq!(dealer.deal(&mut lent), dealt(2, 1, ON));
    assert_eq!(dealer.deal(&mut own), dealt(1, 1, ON));
}
