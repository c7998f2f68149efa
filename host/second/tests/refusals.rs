//! Each refusal where it can occur, and which one wins. That refused calls change
//! nothing is checked inside [`common::Lent`].

mod common;

use common::*;
use schedule::script::shape;
use second::layout::{field, CURRENT, LAST_ALLOCATED, STARTED};
use second::word::{self, MAX_COUNT};
use second::{Answer, Arrival, Response, Shape};

/// The answers of the four entry points on copies of the same memory, which are
/// also those of the narrow calls.
fn all_entries(lent: &Lent) -> [Answer; 4] {
    let both = |call| {
        let answer = lent.clone().whole(0, call);
        assert_eq!(lent.clone().narrow(0, call, 0), answer);
        answer
    };
    [
        lent.clone().reopen(),
        both(Call::Put(arrival(0))),
        both(Call::Take),
        both(Call::Turn),
    ]
}

#[test]
fn refusal_1_at_every_limit() {
    let base = shape(2, 4, 2, 10);
    let outside = [
        Shape { workers: 0, ..base },
        Shape {
            workers: 65,
            ..base
        },
        Shape { nodes: 0, ..base },
        Shape {
            nodes: 4_097,
            ..base
        },
        Shape { buckets: 0, ..base },
        Shape {
            buckets: 257,
            ..base
        },
        Shape { width: 0, ..base },
        Shape {
            width: 65_536,
            ..base
        },
        shape(0, 0, 0, 0),
        shape(u32::MAX, u32::MAX, u32::MAX, u32::MAX),
    ];
    for shape in outside {
        let mut lent = Lent::open(base);
        lent.shape = shape;
        assert_eq!(all_entries(&lent), [refused(1); 4]);
        lent.store.clear();
        lent.workers.clear();
        assert_eq!(all_entries(&lent), [refused(1); 4]);
    }
}

#[test]
fn the_limits_themselves_open() {
    for shape in [shape(1, 1, 1, 1), shape(64, 4_096, 256, 65_535)] {
        let mut lent = Lent::open(shape);
        for time in [shape.span() - 1, shape.span(), u32::MAX] {
            lent.store_whole(0, time);
            assert_eq!(lent.take_whole(0), took(time.into()));
        }
    }
}

#[test]
fn refusal_2_one_short_and_none_spare() {
    let whole = Lent::open(shape(3, 4, 2, 10));
    let words = whole.shape.store_words();
    assert_eq!(words, 3 + 2 + 8 * 4);

    let mut exact = whole.clone();
    exact.store.truncate(words);
    exact.workers.truncate(3);
    let expected = [Ok(Response::Open), begun(1), begun(1), refused(10)];
    assert_eq!(all_entries(&exact), expected);

    for (words, records) in [(words - 1, 3), (words, 2), (0, 3), (words, 0), (0, 0)] {
        let mut short = whole.clone();
        short.store.truncate(words);
        short.workers.truncate(records);
        assert_eq!(all_entries(&short), [refused(2); 4]);
    }
}

#[test]
fn refusal_4_for_records_beyond_the_workers() {
    for worker in [2, 3, 64, usize::MAX] {
        let mut lent = Lent::open(shape(2, 4, 2, 10));
        assert_eq!(lent.put(worker, 5), refused(4));
        assert_eq!(lent.take(worker), refused(4));
        assert_eq!(lent.turn(worker), refused(4));
    }
}

#[test]
fn refusal_5_by_each_field() {
    let base = arrival(5);
    let mut lent = Lent::open(shape(2, 4, 2, 10));
    for arrival in [
        Arrival {
            path: 65_536,
            ..base
        },
        Arrival {
            path: u32::MAX,
            ..base
        },
        Arrival { order: 64, ..base },
        Arrival {
            order: u32::MAX,
            ..base
        },
        Arrival {
            distance: 0,
            ..base
        },
        Arrival {
            distance: 1_025,
            ..base
        },
        Arrival {
            distance: 0,
            time: 20,
            ..base
        },
        Arrival {
            order: 64,
            time: u32::MAX,
            ..base
        },
    ] {
        assert_eq!(lent.put_arrival(0, arrival), refused(5));
    }
    let largest = Arrival {
        time: u32::MAX,
        path: 65_535,
        order: 63,
        distance: 1_024,
    };
    assert_eq!(lent.put_arrival(0, largest), begun(1));
    lent.finish(0).1.unwrap();
    let expected = Response::Took {
        time: 4_294_967_295,
        path: 65_535,
        order: 63,
        distance: 1_024,
        energy: 16,
    };
    assert_eq!(lent.take_whole(1), Ok(expected));
}

#[test]
fn refusals_9_and_10_at_every_stage() {
    for stage in 1..=13 {
        let mut lent = Lent::open(shape(2, 4, 2, 10));
        lent.workers[0] = record_at(stage);
        assert_eq!(lent.put(0, 5), refused(9));
        assert_eq!(lent.take(0), refused(9));
        assert_eq!(lent.turn(1), refused(10));
        assert_ne!(lent.turn(0), refused(10));
    }
}

#[test]
fn refusal_11_at_a_start() {
    let mut lent = Lent::open(shape(2, 4, 2, 10));
    lent.store[STARTED] = MAX_COUNT - 1;
    assert_eq!(lent.put(0, 5), begun(MAX_COUNT));
    assert_eq!(lent.store[STARTED], MAX_COUNT);
    assert_eq!(lent.put(1, 5), refused(11));
    assert_eq!(lent.take(1), refused(11));
    assert_eq!(lent.finish(0), (5, stored(MAX_COUNT)));
}

/// A put at stage 7 that saw (1, 2^32 - 1), wanting bucket 0.
fn lowering_at_the_largest_epoch() -> Lent {
    let mut lent = Lent::open(shape(2, 4, 2, 10));
    lent.store[CURRENT] = word::current(1, MAX_COUNT);
    lent.put(0, 5).unwrap();
    lent.turns_to(0, 7);
    lent
}

#[test]
fn refusal_11_at_stage_7_only_if_the_swap_would_succeed() {
    let mut lent = lowering_at_the_largest_epoch();
    for _ in 0..3 {
        assert_eq!(lent.turn(0), refused(11));
    }
    // Another bucket, another epoch: the swap fails and the put reads again.
    for other in [word::current(0, MAX_COUNT), word::current(1, MAX_COUNT - 1)] {
        let mut lent = lowering_at_the_largest_epoch();
        lent.store[CURRENT] = other;
        assert_eq!(lent.turn(0), ON);
        assert_eq!(lent.stage(0), 6);
        assert_eq!(lent.store[CURRENT], other);
    }
    // One epoch below the largest is still lowered.
    let mut lent = lowering_at_the_largest_epoch();
    lent.store[CURRENT] = word::current(1, MAX_COUNT - 1);
    assert_eq!(lent.finish(0), (3, stored(1)));
    assert_eq!(lent.current(), (0, MAX_COUNT));
}

#[test]
fn the_arrival_of_a_refused_put_can_be_taken() {
    let mut lent = Lent::open(shape(2, 4, 1, 10));
    lent.store[CURRENT] = word::current(0, MAX_COUNT);
    lent.put(0, 5).unwrap();
    lent.turns_to(0, 7);
    assert_eq!(lent.turn(0), refused(11));
    assert_eq!(lent.take_whole(1), took(5));
    assert_eq!(lent.turn(0), refused(11));
}

#[test]
fn refusal_12_while_nodes_rest() {
    let mut lent = Lent::open(shape(3, 1, 2, 10));
    lent.store_whole(0, 5);
    assert_eq!(lent.put(0, 5), refused(12));
    // A call older than the unlinking keeps the node resting, a newer one not.
    lent.take(1).unwrap();
    assert_eq!(lent.take_whole(0), took(5));
    assert_eq!(lent.put(0, 5), refused(12));
    assert_eq!(lent.finish(1).1, EMPTY);
    lent.take(2).unwrap();
    assert_eq!(lent.put(0, 5), begun(5));
}

/// Makes the condition of a refusal true, for the start or turn of worker 0.
fn provoke(number: u8, lent: &mut Lent, call: &mut (usize, Arrival)) {
    match number {
        1 => lent.shape.width = 0,
        2 => lent.workers.truncate(1),
        3 => lent.store[LAST_ALLOCATED] = 4,
        4 => call.0 = 2,
        5 => call.1.distance = 0,
        9 => lent.workers[0].stage = 7,
        10 => lent.workers[0].stage = 0,
        11 => {
            lent.store[CURRENT] = word::current(1, MAX_COUNT);
            lent.store[STARTED] = MAX_COUNT;
            lent.workers[0].current_seen = word::current(1, MAX_COUNT);
        }
        12 => {
            for node in 0..4 {
                *lent.node_word(node, field::DISTANCE) = 1;
                *lent.node_word(node, field::RECLAMATION) = 1;
            }
        }
        _ => unreachable!(),
    }
}

/// Tries every set of conditions; the lowest number must be the answer, whatever the
/// time of an arrival.
fn lowest_wins(numbers: &[u8], stage: u64, entry: fn(&mut Lent, usize, Arrival) -> Answer) {
    for time in [5, 20, u32::MAX] {
        lowest_wins_at(time, numbers, stage, entry);
    }
}

fn lowest_wins_at(
    time: u32,
    numbers: &[u8],
    stage: u64,
    entry: fn(&mut Lent, usize, Arrival) -> Answer,
) {
    for set in 0..1u32 << numbers.len() {
        let chosen: Vec<u8> = (0..numbers.len())
            .filter(|i| set >> i & 1 == 1)
            .map(|i| numbers[i])
            .collect();
        let mut lent = Lent::open(shape(2, 4, 2, 10));
        lent.workers[0] = record_at(stage);
        let mut call = (0, arrival(time));
        // The shape last: the others look at the layout.
        for &number in chosen.iter().rev() {
            provoke(number, &mut lent, &mut call);
        }
        let answer = entry(&mut lent, call.0, call.1);
        match chosen.first() {
            Some(&lowest) => assert_eq!(answer, refused(lowest), "{chosen:?}"),
            None => assert!(answer.is_ok()),
        }
    }
}

#[test]
fn the_lowest_number_wins() {
    lowest_wins(&[1, 2, 3, 4, 5, 9, 11, 12], 0, |lent, worker, arrival| {
        lent.put_arrival(worker, arrival)
    });
    lowest_wins(&[1, 2, 3, 4, 9, 11], 0, |lent, worker, _| lent.take(worker));
    lowest_wins(&[1, 2, 3, 4, 10, 11], 7, |lent, worker, _| {
        lent.turn(worker)
    });
}

#[test]
fn the_lowest_number_wins_in_narrow_calls() {
    lowest_wins(&[1, 2, 3, 4, 5, 9, 11, 12], 0, |lent, worker, arrival| {
        lent.narrow(worker, Call::Put(arrival), 0)
    });
    lowest_wins(&[1, 2, 3, 4, 9, 11], 0, |lent, worker, _| {
        lent.narrow(worker, Call::Take, 0)
    });
    lowest_wins(&[1, 2, 3, 4, 10, 11], 7, |lent, worker, _| {
        lent.narrow(worker, Call::Turn, 0)
    });
}

/// Conditions of other entry points do not count.
#[test]
fn each_applies_on_its_condition_only() {
    let mut lent = Lent::with_stored(shape(2, 1, 2, 10), &[5]);
    lent.store[STARTED] = MAX_COUNT;
    lent.workers[0] = record_at(8);
    assert_eq!(lent.turn(0), ON); // 11 and 12 would hold for a put.
    lent.store[STARTED] = 1;
    assert_eq!(lent.take(1), begun(2)); // 12 would hold for a put.
}
