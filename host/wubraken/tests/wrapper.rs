//! What the wrapper itself promises.

mod common;

use std::collections::HashSet;

use common::{shape, ARRIVAL};
use schedule::to_the_end;
use second::layout::{field, node_at, CURRENT, STARTED};
use second::word::MAX_COUNT;
use wubraken::{Arrival, BatchEnd, Dealer, Echogram, Pool, Put};
use wubraken::{Refusal, Shape, Step, Stop, Take, Taken, Worker};

const SHAPE: Shape = shape(2, 2, 2, 10);

fn open() -> Pool {
    Pool::new(SHAPE).unwrap()
}

fn finish(pool: &mut Pool, worker: u64) -> Step {
    let (_, end) = to_the_end(1_000, Ok(Step::On), || pool.step(worker));
    end.unwrap()
}

#[test]
fn a_new_pool_has_exactly_what_its_shape_needs() {
    let pool = open();
    assert_eq!(pool.shape(), SHAPE);
    assert_eq!(Some(pool.store().len()), SHAPE.words());
    assert_eq!(pool.table(), [Worker::default(); 2]);
}

#[test]
fn a_new_pool_of_absurd_size_lends_nothing() {
    for absurd in [u64::MAX, 1 << 63, 1 << 40, 0] {
        let shapes = [
            shape(absurd, 2, 2, 10),
            shape(2, absurd, 2, 10),
            shape(2, 2, absurd, 10),
            shape(2, 2, 2, absurd),
        ];
        for shape in shapes {
            assert_eq!(Pool::new(shape).unwrap_err(), Refusal::BadShape);
        }
    }
}

/// Each is a call that gives just this refusal; [`TooLate`](Refusal::TooLate) has none.
#[test]
fn every_refusal_by_name() {
    let mut pool = open();
    let bad = Shape { width: 0, ..SHAPE };
    let large = Shape { nodes: 3, ..SHAPE };
    assert_eq!(pool.reopen(bad), Err(Refusal::BadShape));
    assert_eq!(pool.reopen(large), Err(Refusal::TooShort));
    assert_eq!(pool.shape(), SHAPE);
    assert_eq!(pool.enqueue(2, ARRIVAL), Err(Refusal::NoWorker));
    let far = Arrival {
        distance: Arrival::MAX_DISTANCE + 1,
        ..ARRIVAL
    };
    assert_eq!(pool.enqueue(0, far), Err(Refusal::BadArrival));
    assert_eq!(pool.step(0), Err(Refusal::Idle));
    let idle = Dealer::new(SHAPE).deal(&mut pool);
    assert_eq!(idle, Err(Refusal::AllIdle));
    assert_eq!(pool.enqueue(0, ARRIVAL), Ok(1));
    assert_eq!(pool.dequeue(0), Err(Refusal::Busy));
    assert_eq!(finish(&mut pool, 0), Step::Stored(1));
    assert_eq!(pool.enqueue(0, ARRIVAL), Ok(2));
    assert_eq!(pool.enqueue(1, ARRIVAL), Err(Refusal::NoNode));

    let halted = |read, refusal| BatchEnd {
        read,
        written: 0,
        stop: Stop::Halted(refusal),
    };
    let mut out = [0; 100];
    assert_eq!(
        pool.run_batch(b"XX", &mut out),
        halted(0, Refusal::UnknownMark)
    );
    assert_eq!(
        pool.run_batch(b"TU", &mut out),
        halted(0, Refusal::CutRecord)
    );

    let (mut store, table) = pool.into_parts();
    store[STARTED] = MAX_COUNT;
    let mut pool = Pool::resume(SHAPE, store, table);
    assert_eq!(pool.dequeue(1), Err(Refusal::Exhausted));
    let (mut store, table) = pool.into_parts();
    store[STARTED] = MAX_COUNT + 1;
    let mut pool = Pool::resume(SHAPE, store, table);
    assert_eq!(pool.dequeue(1), Err(Refusal::OutOfRange));
    assert_eq!(pool.reopen(SHAPE), Ok(()));
    assert_eq!(pool.dequeue(1), Ok(1));

    let mut echogram = Echogram::new(2, 10).unwrap();
    let mut series = |energies: &[u32]| echogram.record_series(&[0, 0], energies, &mut [0; 2]);
    assert_eq!(series(&[0, 0, 0]), Err(Refusal::TooShort));
    assert_eq!(Echogram::new(2, 0).unwrap_err(), Refusal::BadRow);
    assert_eq!(echogram.record(20, 1), Err(Refusal::PastRow));
    assert_eq!(echogram.record(19, u32::MAX), Ok(()));
    assert_eq!(echogram.record(0, 1), Err(Refusal::SumTooLarge));
    assert_eq!(echogram.decay_curve(&mut [0]), Err(Refusal::ShortBuffer));
    assert_eq!(echogram.clear(), Ok(()));
    assert_eq!(echogram.t20(), Err(Refusal::SilentRow));
}

#[test]
fn numbers_and_sentences_of_refusals() {
    let mut sentences = HashSet::new();
    let numbers: Vec<u64> = Refusal::ALL.iter().map(|each| each.number()).collect();
    assert_eq!(numbers, (1..=17).chain([19]).collect::<Vec<_>>());
    for (number, &refusal) in numbers.into_iter().zip(Refusal::ALL) {
        assert_eq!(Refusal::from_number(number), Some(refusal));
        let text = refusal.to_string();
        let sentence = text.strip_prefix(&format!("refused by {number}: "));
        assert!(sentences.insert(sentence.unwrap().to_string()));
    }
    for number in [0, 18, 20, u64::MAX, 1 << 8 | 1, 1 << 32 | 1] {
        assert_eq!(Refusal::from_number(number), None);
    }
}

/// The number stays, and says that nobody gets it.
#[test]
fn number_6_is_reserved() {
    assert_eq!(Refusal::from_number(6), Some(Refusal::TooLate));
    let text = Refusal::TooLate.to_string();
    assert!(
        text.starts_with("refused by 6: not given since Q-1"),
        "{text}"
    );
}

/// At the last bucket's first time, at the end of its width, behind that, and at the
/// last time there is.
#[test]
fn times_in_the_tail_are_taken_in_their_order() {
    let mut pool = Pool::new(shape(1, 4, 2, 10)).unwrap();
    let times = [u32::MAX, 10, 20, 19];
    for (ticket, time) in (1..).zip(times) {
        let arrival = Arrival { time, ..ARRIVAL };
        assert_eq!(pool.put(0, arrival, u64::MAX), Ok(Put::Stored(ticket)));
        assert_eq!(pool.table()[0].bucket, 1);
    }
    for time in [10, 19, 20, u32::MAX] {
        let taken = Taken { time, ..TAKEN };
        assert_eq!(pool.take(0, u64::MAX), Ok(Take::Took(taken)));
    }
    assert_eq!(pool.take(0, u64::MAX), Ok(Take::Empty));
}

/// What comes out after [`ARRIVAL`] was put in.
const TAKEN: Taken = Taken {
    time: 5,
    path: 7,
    order: 1,
    distance: 3,
    energy: 1_864_135,
};

/// Alone, a put has 5 turns and a take of it 7.
#[test]
fn put_and_take_up_to_a_limit() {
    for turns in 0..10 {
        let mut pool = open();
        let put = pool.put(0, ARRIVAL, turns);
        assert_eq!(pool.in_progress(0), turns < 5);
        match turns {
            0..=4 => {
                assert_eq!(put, Ok(Put::InProgress));
                assert_eq!(pool.put(0, ARRIVAL, turns), Err(Refusal::Busy));
                assert_eq!(pool.take(0, turns), Err(Refusal::Busy));
                assert_eq!(pool.run(0, u64::MAX), Ok(Step::Stored(1)));
            }
            _ => assert_eq!(put, Ok(Put::Stored(1))),
        }
        let take = pool.take(1, turns);
        assert_eq!(pool.in_progress(1), turns < 7);
        match turns {
            0..=6 => {
                assert_eq!(take, Ok(Take::InProgress));
                assert_eq!(pool.run(1, u64::MAX), Ok(Step::Took(TAKEN)));
            }
            _ => assert_eq!(take, Ok(Take::Took(TAKEN))),
        }
        assert_eq!(pool.take(0, u64::MAX), Ok(Take::Empty));
        assert_eq!(pool.calls_left(), MAX_COUNT - 3);
    }
}

/// A run is as many steps.
#[test]
fn runs_up_to_a_limit() {
    let mut pool = open();
    assert_eq!(pool.run(0, 1), Err(Refusal::Idle));
    assert_eq!(pool.enqueue(0, ARRIVAL), Ok(1));
    for turns in 0..10 {
        let (mut run, mut steps) = (pool.clone(), pool.clone());
        let mut last = Ok(Step::On);
        for _ in 0..turns {
            if last == Ok(Step::On) {
                last = steps.step(0);
            }
        }
        assert_eq!(run.run(0, turns), last);
        assert_eq!(run.store(), steps.store());
        assert_eq!(run.table(), steps.table());
    }
}

/// No turn is nothing at all, even where every turn would be refused.
#[test]
fn a_run_of_no_turn_does_nothing() {
    for shape in [SHAPE, Shape::default()] {
        let mut pool = Pool::resume(shape, [u64::MAX; 3], [] as [Worker; 0]);
        for worker in [0, 2, u64::MAX] {
            assert_eq!(pool.run(worker, 0), Ok(Step::On));
        }
        assert_eq!(pool.store(), [u64::MAX; 3]);
    }
}

/// The start is refused, and nothing has begun; or a turn is, and the call stays.
#[test]
fn a_put_with_no_epoch_left() {
    let (mut store, table) = open().into_parts();
    store[CURRENT] = MAX_COUNT;
    let mut pool = Pool::resume(SHAPE, store, table);
    assert_eq!(pool.put(0, ARRIVAL, u64::MAX), Err(Refusal::Exhausted));
    assert!(pool.in_progress(0));
    assert_eq!(pool.run(0, u64::MAX), Err(Refusal::Exhausted));
    assert_eq!(pool.audit(), Ok(()));
    // A take finds the arrival all the same.
    assert_eq!(pool.take(1, u64::MAX), Ok(Take::Took(TAKEN)));

    let (mut store, table) = open().into_parts();
    store[STARTED] = MAX_COUNT;
    let mut pool = Pool::resume(SHAPE, store, table);
    assert_eq!(pool.put(0, ARRIVAL, u64::MAX), Err(Refusal::Exhausted));
    assert!(!pool.in_progress(0));
}

/// Turns that went before are done.
#[test]
fn a_put_in_damaged_memory() {
    let (mut store, table) = open().into_parts();
    // The head of bucket 0 leads nowhere.
    store[3] = 1 << 40;
    let mut pool = Pool::resume(SHAPE, store, table);
    assert_eq!(pool.put(0, ARRIVAL, u64::MAX), Err(Refusal::OutOfRange));
    assert!(pool.in_progress(0));
    assert_eq!(pool.table()[0].right, 1 << 39);
    assert_eq!(pool.audit(), Err(Refusal::OutOfRange));
}

#[test]
fn calls_in_progress() {
    let mut pool = Pool::open(SHAPE, [0; 30], [Worker::default(); 3]).unwrap();
    assert_eq!(pool.dequeue(1), Ok(1));
    let in_progress = [0, 1, 2, 3, u64::MAX].map(|worker| pool.in_progress(worker));
    assert_eq!(in_progress, [false, true, false, false, false]);
    let (store, mut table) = pool.into_parts();
    // A record that is no worker's, and a worker's that there is not.
    table[2].stage = 1;
    assert!(!Pool::resume(SHAPE, store, table).in_progress(2));
    assert!(!Pool::resume(SHAPE, store, &table[..1]).in_progress(1));
}

#[test]
fn calls_left_before_11() {
    let mut pool = open();
    assert_eq!(pool.calls_left(), 4_294_967_295);
    for left in [4_294_967_294, 4_294_967_293] {
        assert_eq!(pool.put(0, ARRIVAL, u64::MAX).map(drop), Ok(()));
        assert_eq!(pool.calls_left(), left);
    }
    let left = |begun| Pool::resume(SHAPE, [0, begun], ()).calls_left();
    let begun = [MAX_COUNT - 1, MAX_COUNT, MAX_COUNT + 1, u64::MAX];
    assert_eq!(begun.map(left), [1, 0, 0, 0]);
    assert_eq!(Pool::resume(SHAPE, [0], ()).calls_left(), 0);
}

/// The last start that can begin does, and the next is refused.
#[test]
fn the_last_call() {
    let (mut store, table) = open().into_parts();
    store[STARTED] = MAX_COUNT - 1;
    let mut pool = Pool::resume(SHAPE, store, table);
    assert_eq!(pool.calls_left(), 1);
    assert_eq!(pool.put(0, ARRIVAL, u64::MAX), Ok(Put::Stored(MAX_COUNT)));
    assert_eq!(pool.calls_left(), 0);
    assert_eq!(pool.take(0, u64::MAX), Err(Refusal::Exhausted));
}

#[test]
fn an_audit_looks_at_all_and_changes_nothing() {
    let mut pool = open();
    assert_eq!(pool.put(0, ARRIVAL, 3), Ok(Put::InProgress));
    assert_eq!(pool.audit(), Ok(()));
    let (store, table) = pool.into_parts();
    for place in 0..store.len() {
        let mut damaged = store.clone();
        damaged[place] = u64::MAX;
        let mut pool = Pool::resume(SHAPE, damaged.clone(), table.clone());
        assert_eq!(pool.audit(), Err(Refusal::OutOfRange), "word {place}");
        assert_eq!(pool.into_parts(), (damaged, table.clone()));
    }
    for worker in 0..table.len() {
        let mut damaged = table.clone();
        damaged[worker].seen = u64::MAX;
        let mut pool = Pool::resume(SHAPE, store.clone(), damaged.clone());
        assert_eq!(pool.audit(), Err(Refusal::OutOfRange), "worker {worker}");
        assert_eq!(pool.into_parts(), (store.clone(), damaged));
    }
    let bad = Shape { width: 0, ..SHAPE };
    let audited = |shape, words, records| {
        let (store, table) = (&mut store.clone()[..words], &mut table.clone()[..records]);
        Pool::resume(shape, store, table).audit()
    };
    assert_eq!(audited(bad, 21, 2), Err(Refusal::BadShape));
    assert_eq!(audited(SHAPE, 20, 2), Err(Refusal::TooShort));
    assert_eq!(audited(SHAPE, 21, 1), Err(Refusal::TooShort));
    assert_eq!(audited(SHAPE, 21, 2), Ok(()));
}

/// Memory that was damaged in a node is not noticed by those that do not look.
#[test]
fn an_arrival_that_does_not_fit() {
    let mut pool = open();
    assert_eq!(pool.put(0, ARRIVAL, u64::MAX), Ok(Put::Stored(1)));
    let (mut store, table) = pool.into_parts();
    let node = node_at(2, 0);
    store[node + field::PATH] = u64::MAX;
    store[node + field::ORDER] = 1 << 32;
    store[node + field::DISTANCE] = (1 << 32) - 1;
    let mut pool = Pool::resume(SHAPE, store, table);
    assert_eq!(pool.audit(), Err(Refusal::OutOfRange));
    let taken = Taken {
        path: u32::MAX,
        order: u32::MAX,
        distance: u32::MAX,
        energy: 0,
        ..TAKEN
    };
    assert_eq!(pool.take(0, u64::MAX), Ok(Take::Took(taken)));
    assert!(Arrival::from(taken).check().is_err());
}

/// A put and a take of one worker, in whatever memory.
fn put_and_take<S: AsMut<[u64]>, T: AsMut<[Worker]>>(mut pool: Pool<S, T>) -> (S, T) {
    assert_eq!(pool.enqueue(0, ARRIVAL), Ok(1));
    for step in [Step::On, Step::On, Step::On, Step::On, Step::Stored(1)] {
        assert_eq!(pool.step(0), Ok(step));
    }
    assert_eq!(pool.dequeue(0), Ok(2));
    for _ in 0..6 {
        assert_eq!(pool.step(0), Ok(Step::On));
    }
    assert_eq!(pool.step(0), Ok(Step::Took(TAKEN)));
    assert_eq!(Arrival::from(TAKEN), ARRIVAL);
    pool.into_parts()
}

#[test]
fn memory_owned_boxed_or_borrowed() {
    let (store, table) = put_and_take(open());
    let (boxed, records) = (vec![9; 30].into_boxed_slice(), [Worker::default(); 3]);
    let (boxed, _) = put_and_take(Pool::open(SHAPE, boxed, records).unwrap());
    assert_eq!(boxed[..21], store);
    assert_eq!(boxed[21..], [9; 9]);

    let (mut lent_store, mut lent_table) = ([9; 21], [Worker::default(); 2]);
    put_and_take(Pool::open(SHAPE, &mut lent_store[..], &mut lent_table[..]).unwrap());
    assert_eq!(lent_store[..], store);
    assert_eq!(lent_table[..], table);
}

/// Lends its parts in turn.
struct Fickle {
    words: Vec<u64>,
    asked: usize,
}

impl AsMut<[u64]> for Fickle {
    fn as_mut(&mut self) -> &mut [u64] {
        self.asked += 1;
        let length = self.asked * 7 % (self.words.len() + 1);
        &mut self.words[..length]
    }
}

/// Each call speaks of the slice it got, and stays inside it.
#[test]
fn memory_of_another_length_at_every_call() {
    let words = SHAPE.words().unwrap();
    let store = Fickle {
        words: vec![0; words],
        asked: 0,
    };
    let mut pool = Pool::resume(SHAPE, store, [Worker::default(); 2]);
    let answers: Vec<_> = (0..2 * words + 2).map(|_| pool.dequeue(0)).collect();
    let (store, _) = pool.into_parts();
    assert_eq!(store.asked, answers.len());
    let begun: Vec<_> = (1..=answers.len())
        .filter(|asked| asked * 7 % (words + 1) == words)
        .map(|asked| answers[asked - 1])
        .collect();
    assert_eq!(begun[0], Ok(1));
    assert!(begun[1..]
        .iter()
        .all(|&answer| answer == Err(Refusal::Busy)));
    let refused = answers
        .iter()
        .filter(|&&answer| answer == Err(Refusal::TooShort));
    assert_eq!(refused.count() + begun.len(), answers.len());
}

#[test]
fn a_pool_may_move_between_threads() {
    let mut pool = open();
    pool.enqueue(0, ARRIVAL).unwrap();
    let pool = std::thread::spawn(move || {
        assert_eq!(finish(&mut pool, 0), Step::Stored(1));
        pool
    });
    assert_eq!(pool.join().unwrap().dequeue(1), Ok(2));
}
