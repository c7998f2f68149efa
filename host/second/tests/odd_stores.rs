//! Turns on stores that did not grow from an opening, where readings of the rules
//! differ.

mod common;

use common::*;
use schedule::script::shape;
use schedule::Random;
use second::layout::{field, CURRENT};
use second::{kind, stage, word, Response, Worker};

/// Distance 0 in a store not grown from an opening has energy 0.
#[test]
fn a_taken_distance_of_0() {
    let mut lent = Lent::open(shape(1, 2, 1, 10));
    lent.workers[0] = Worker {
        kind: 1,
        ..record_at(1)
    };
    let expected = Response::Took {
        time: 0,
        path: 0,
        order: 0,
        distance: 0,
        energy: 0,
    };
    assert_eq!(lent.turn(0), Ok(expected));
}

/// Stages 12 and 13 look at the record's bucket and the epoch seen, stage 7 at
/// the whole word seen; they differ only on stores not grown from an opening.
#[test]
fn what_the_swaps_of_current_compare() {
    let record = |stage| Worker {
        current_seen: word::current(2, 7),
        right: 4,
        ..record_at(stage)
    };
    let open = || Lent::open(shape(1, 4, 3, 10));

    let mut lent = open();
    lent.store[CURRENT] = word::current(0, 7);
    lent.workers[0] = record(12);
    assert_eq!(lent.turn(0), ON);
    assert_eq!((lent.stage(0), lent.current()), (9, (1, 7)));
    assert_eq!(lent.workers[0].current_seen, word::current(1, 7));
    assert_eq!(lent.workers[0].bucket, 1);

    lent.workers[0] = record(13);
    lent.workers[0].bucket = 1;
    assert_eq!(lent.turn(0), EMPTY);
    assert_eq!(lent.workers[0].current_seen, word::current(2, 7));

    lent.workers[0] = record(7);
    assert_eq!(lent.turn(0), ON);
    assert_eq!((lent.stage(0), lent.current()), (6, (1, 7)));
    lent.store[CURRENT] = word::current(2, 7);
    lent.workers[0] = record(7);
    assert_eq!(lent.turn(0), stored(0));
    assert_eq!(lent.current(), (0, 8));
}

const TIMES: [u64; 3] = [0, 1, word::MAX_COUNT];
const ORDERS: [u64; 3] = [0, 1, 63];
const TICKETS: [u64; 3] = [0, 1, word::MAX_COUNT];

/// Larger for the higher key: every order is below 64, every ticket below 2^32.
fn weight((time, order, ticket): Key) -> u128 {
    u128::from(time * 64 + order) << 32 | u128::from(ticket)
}

/// Stage 2 compares the words of two nodes that nobody has put, for a put and for a take.
#[test]
fn keys_at_their_limits() {
    let every_key = || {
        let times = TIMES.into_iter();
        let orders = times.flat_map(|time| ORDERS.map(|order| (time, order)));
        orders.flat_map(|(time, order)| TICKETS.map(|ticket| (time, order, ticket)))
    };
    for kind in [kind::ENQUEUE, kind::DEQUEUE] {
        for node in every_key() {
            for own in every_key() {
                let mut lent = Lent::open(shape(1, 3, 1, 10));
                lent.set_key(0, node);
                lent.set_key(1, own);
                *lent.node_word(0, field::LINK) = word::link(2);
                lent.workers[0] = Worker {
                    kind,
                    own: 1,
                    ..record_at(2)
                };
                let passes = weight(node) < weight(own);
                assert_eq!(passes_right(&mut lent), passes, "{node:?} {own:?}");
            }
        }
    }
}

/// Whether worker 0, at stage 2 with a head as its left and an unmarked right, passes it
/// or ends its search.
fn passes_right(lent: &mut Lent) -> bool {
    let before = lent.workers[0];
    lent.turn(0).unwrap();
    let after = lent.workers[0];
    let passed = u64::from(lent.shape.buckets) + before.right;
    assert!([before.left, passed].contains(&after.left));
    let passes = after.left == passed;
    let ends = match before.kind {
        kind::ENQUEUE => stage::ENQUEUE_PREPARE,
        _ => stage::IDLE,
    };
    assert!(passes || (after.stage, after.right) == (ends, before.right));
    passes
}

/// The same on any memory in range, where keys are often equal up to the order, up to the
/// ticket or wholly.
#[test]
fn keys_in_any_memory() {
    let mut random = Random::new(8);
    let mut counts = [0; 4];
    for _ in 0..40_000 {
        let mut lent = lend(&any_in_range(&mut random));
        let right = random.below(lent.shape.nodes) as usize;
        *lent.node_word(right, field::LINK) &= !1;
        let record = &mut lent.workers[0];
        *record = Worker {
            stage: stage::SEARCH_LINK,
            kind: random.below(2).into(),
            left: 0,
            right: right as u64,
            ..*record
        };
        let own = record.own as usize;
        let [node, own] = [right, own].map(|node| lent.key(node));
        let equal = match () {
            _ if node.0 != own.0 => 0,
            _ if node.1 != own.1 => 1,
            _ if node.2 != own.2 => 2,
            _ => 3,
        };
        counts[equal] += 1;
        assert_eq!(passes_right(&mut lent), weight(node) < weight(own));
    }
    println!("{counts:?}");
    assert!(counts.iter().all(|&count| count > 1_000), "{counts:?}");
}

/// Stage 11 keeps a mark that the link word seen has already.
#[test]
fn marking_what_is_marked() {
    let mut lent = Lent::open(shape(1, 2, 1, 10));
    *lent.node_word(1, field::LINK) = 1;
    lent.workers[0] = Worker {
        right: 1,
        link_seen: 1,
        ..record_at(11)
    };
    assert_eq!(lent.turn(0), ON);
    assert_eq!(*lent.node_word(1, field::LINK), 1);
    assert_eq!((lent.stage(0), lent.workers[0].own), (1, 1));
}
