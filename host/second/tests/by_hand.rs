//! Every case by hand of docs/RULES.md.

mod common;

use common::*;
use schedule::by_hand::{self, ENERGIES};
use schedule::script::shape;
use schedule::Script;
use second::layout::{field, CURRENT};
use second::{energy, word, Arrival, Reclamation, Worker};
use spreading::{is_energy, wide_distances};

fn fresh() -> Lent {
    Lent::open(shape(2, 4, 2, 10))
}

#[test]
fn every_case_prints_its_lines() {
    for (name, script) in by_hand::cases() {
        println!("{name}");
        Lent::play(&script);
        assert_eq!(schedule::lines(&script.bytes()[..]), script.output());
    }
}

#[test]
fn fresh_take_then_put_at_5() {
    let mut lent = fresh();
    assert_eq!(lent.take_whole(0), EMPTY);
    assert_eq!(lent.current(), (1, 0));
    let lent = Lent::play(&by_hand::fresh_take_then_put_at_5());
    assert_eq!(lent.current(), (0, 1));
}

#[test]
fn fresh_put_at_15() {
    let lent = Lent::play(&by_hand::fresh_put_at_15());
    assert_eq!(lent.current(), (0, 0));
}

#[test]
fn fresh_put_at_5_then_take() {
    let lent = Lent::with_stored(shape(2, 4, 2, 10), &[5]);
    assert_eq!(lent.current(), (0, 1));
    let lent = Lent::play(&by_hand::fresh_put_at_5_then_take());
    assert_eq!(lent.current(), (0, 1));
}

/// 19, 20 and the last time there is; of 20 also the rest of the put.
#[test]
fn times_19_and_20_begin_in_bucket_1() {
    let lent = Lent::play(&by_hand::puts_at_19_and_20());
    let buckets = [0, 1].map(|worker: usize| lent.workers[worker].bucket);
    assert_eq!(buckets, [1, 1]);
    for time in [20, u32::MAX] {
        let lent = Lent::play(&Script::open(2, 4, 2, 10).put(0, time));
        let expected = Worker {
            stage: 1,
            bucket: 1,
            ticket: 1,
            ..Worker::default()
        };
        assert_eq!(lent.workers[0], expected);
    }
    let mut lent = Lent::play(&Script::open(2, 4, 2, 10).stored(0, 20, 4));
    assert_eq!(lent.times(1), [20]);
    assert_eq!(lent.current(), (0, 0));
}

#[test]
fn four_puts_a_busy_worker_and_no_free_node() {
    for apart in [1, 0] {
        let lent = Lent::play(&by_hand::four_puts(apart));
        for worker in 0..4 {
            assert_eq!(lent.workers[worker].own, worker as u64);
        }
    }
}

#[test]
fn energies() {
    for (distance, expected) in ENERGIES {
        let mut lent = Lent::play(&by_hand::energy_at(distance, expected));
        assert_eq!(*lent.node_word(0, field::DISTANCE), u64::from(distance));
    }
}

/// In the table, behind it, and where nothing is left.
#[test]
fn energies_at_any_distance() {
    for distance in (0..=4_100).chain(wide_distances()) {
        assert!(is_energy(distance, energy(distance).into()), "{distance}");
    }
}

#[test]
fn distances_0_and_1025_are_5() {
    Lent::play(&by_hand::distances_out_of_range());
    // More than a turn file can hold.
    let arrival = Arrival {
        distance: u32::MAX,
        ..arrival(5)
    };
    assert_eq!(fresh().put_arrival(0, arrival), refused(5));
}

/// Two takers, both at stage 11 on node 0.
fn two_takers(script: &Script) -> Lent {
    let lent = Lent::play(script);
    for worker in [0, 1] {
        assert_eq!((lent.stage(worker), lent.workers[worker].right), (11, 0));
    }
    lent
}

#[test]
fn the_losing_taker_walks_on() {
    let mut lent = two_takers(&by_hand::two_takers_before_7());
    let seen = lent.store[CURRENT];
    assert_eq!(lent.turn(0), ON);
    assert_eq!(lent.stage(0), 1);
    assert_eq!(lent.workers[0].own, 0);

    // Another current word must not be noticed by the loser.
    lent.store[CURRENT] = word::current(0, 9);
    assert_eq!(lent.turn(1), ON);
    assert_eq!((lent.stage(1), lent.workers[1].right), (10, 0));
    assert_eq!(lent.turn(1), ON);
    assert_eq!((lent.stage(1), lent.workers[1].right), (10, 1));
    assert_eq!(lent.turn(1), ON);
    assert_eq!((lent.stage(1), lent.workers[1].right), (11, 1));
    assert_eq!(lent.workers[1].current_seen, seen);

    // It marks node 1, unlinks both nodes on its way, and answers its own.
    lent.turns(1, 1);
    assert_eq!((lent.stage(1), lent.workers[1].own), (1, 1));
    assert_eq!(lent.finish(1), (5, took(7)));
    assert_eq!(lent.times(0), []);
    for node in [0, 1] {
        let word = *lent.node_word(node, field::RECLAMATION);
        assert_eq!(Reclamation::from_word(word), Reclamation::Retired(4));
    }
    assert_eq!(lent.finish(0), (1, took(5)));
}

#[test]
fn the_losing_taker_may_find_nothing_more() {
    let mut lent = two_takers(&by_hand::two_takers_before_the_end());
    assert_eq!(lent.turn(0), ON);
    lent.turns(1, 1);
    assert_eq!((lent.stage(1), lent.workers[1].right), (10, 0));
    lent.turns(1, 1);
    assert_eq!((lent.stage(1), lent.workers[1].right), (12, 4));
    assert_eq!(lent.finish(1), (3, EMPTY));
    assert_eq!(lent.current(), (1, 1));
    assert_eq!(lent.finish(0), (3, took(5)));
}
