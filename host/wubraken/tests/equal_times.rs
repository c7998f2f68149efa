//! Arrivals of equal time: whoever puts them, and by whatever calls, the lower order comes
//! out first, and at equal orders the one whose put began first.

mod common;

use std::iter::from_fn;

use common::lent::{Call, Lent};
use common::shape;
use wubraken::raw::kind;
use wubraken::{Arrival, Dealer, Pool, Put, Refusal, Shape, Step, Stop, Take, Worker};

const SHAPE: Shape = shape(4, 4, 2, 10);

type Four = [Arrival; 4];

/// Every four of two times, in the first bucket or in the tail, and three orders. A path is
/// the place among the four.
fn every_four() -> impl Iterator<Item = Four> {
    let four = |number: u32, latest: u32| {
        [0, 1, 2, 3].map(|path| {
            let digit = number / 6_u32.pow(path) % 6;
            Arrival {
                time: latest - digit % 2,
                path,
                order: [0, 1, Arrival::MAX_ORDER][digit as usize / 2],
                distance: 3,
            }
        })
    };
    (0..6_u32.pow(4)).flat_map(move |number| [5, u32::MAX].map(|latest| four(number, latest)))
}

/// The paths by time and order; equal ones stay as they are.
fn sorted(mut four: Four) -> Vec<u32> {
    four.sort_by_key(|arrival| (arrival.time, arrival.order));
    four.map(|arrival| arrival.path).to_vec()
}

fn drained(pool: &mut Pool) -> Vec<u32> {
    let next = || match pool.take(0, u64::MAX) {
        Ok(Take::Took(taken)) => Some(taken.path),
        end => {
            assert_eq!(end, Ok(Take::Empty));
            None
        }
    };
    from_fn(next).collect()
}

/// Each worker begins to put one, in their order.
fn begin_all(four: Four) -> Pool {
    let mut pool = Pool::new(SHAPE).unwrap();
    for (worker, arrival) in (0..).zip(four) {
        assert_eq!(pool.enqueue(worker, arrival), Ok(worker + 1));
    }
    pool
}

#[test]
fn put_one_after_the_other() {
    for four in every_four() {
        let mut pool = Pool::new(SHAPE).unwrap();
        for (ticket, arrival) in (1..).zip(four) {
            assert_eq!(pool.put(0, arrival, u64::MAX), Ok(Put::Stored(ticket)));
        }
        assert_eq!(drained(&mut pool), sorted(four), "{four:?}");
    }
}

/// It is their starts that count.
#[test]
fn puts_that_end_the_other_way_round() {
    for four in every_four() {
        let mut pool = begin_all(four);
        for worker in (0..4).rev() {
            assert_eq!(pool.run(worker, u64::MAX), Ok(Step::Stored(worker + 1)));
        }
        assert_eq!(drained(&mut pool), sorted(four), "{four:?}");
    }
}

#[test]
fn puts_by_a_dealer() {
    for four in every_four() {
        let (mut pool, mut dealer) = (begin_all(four), Dealer::new(SHAPE));
        for _ in four {
            let dealt = dealer.run(&mut pool, u64::MAX).unwrap();
            assert_eq!(dealt.step, Ok(Step::Stored(dealt.worker + 1)));
        }
        assert_eq!(dealer.deal(&mut pool), Err(Refusal::AllIdle));
        assert_eq!(drained(&mut pool), sorted(four), "{four:?}");
    }
}

#[test]
fn whole_calls() {
    for four in every_four() {
        let mut store = vec![0; SHAPE.words().unwrap()];
        let mut table = [Worker::default(); 4];
        let lent = Lent::of(&mut store, &mut table);
        let finish = |start| {
            assert_eq!(lent.call(SHAPE, start).kind, kind::BEGUN);
            let turns = from_fn(|| Some(lent.call(SHAPE, Call::Step(0))));
            let mut ends = turns.skip_while(|answer| answer.kind == kind::ON);
            ends.next().unwrap()
        };
        lent.call(SHAPE, Call::Open);
        for arrival in four {
            assert_eq!(finish(Call::Enqueue(0, arrival)).kind, kind::STORED);
        }
        let taken = [(); 4].map(|()| finish(Call::Dequeue(0)).path as u32);
        assert_eq!(taken.to_vec(), sorted(four), "{four:?}");
    }
}

/// Turns too many are refused by 10.
#[test]
fn a_batch() {
    for four in every_four() {
        let turns = b"TU\0".repeat(20);
        let mut batch = Vec::new();
        for arrival in four {
            batch.extend(b"PU\0");
            batch.extend(arrival.time.to_le_bytes());
            batch.extend([arrival.path as u8, 0, arrival.order as u8]);
            batch.extend([arrival.distance as u8, 0]);
            batch.extend(&turns);
        }
        for _ in four {
            batch.extend(b"TA\0");
            batch.extend(&turns);
        }
        let mut out = [0; 10_000];
        let end = Pool::new(SHAPE).unwrap().run_batch(&batch, &mut out);
        assert_eq!(end.stop, Stop::Drained);
        let lines = std::str::from_utf8(&out[..end.written]).unwrap();
        let took = lines.lines().filter_map(|line| line.strip_prefix("took "));
        let path = |line: &str| line.split(' ').nth(1).unwrap().parse().unwrap();
        assert_eq!(took.map(path).collect::<Vec<u32>>(), sorted(four));
    }
}
