//! Every kind of field pushed out of its range on its own, and to its bounds.

mod common;

use common::*;
use schedule::lent::{fields, often_small};
use schedule::script::shape;
use schedule::Random;
use second::layout::{field, CURRENT, LAST_ALLOCATED, STARTED};
use second::{word, Worker};

const WORKERS: usize = 3;
const NODES: u64 = 4;
const BUCKETS: u64 = 2;
/// One past the largest count.
const COUNT: u64 = word::MAX_COUNT + 1;

/// What is expected comes from the rules: counts are below 2^32 (rules C2, C3 and D2), whatever
/// the program under test takes for the largest.
#[test]
fn the_largest_count() {
    assert_eq!(word::MAX_COUNT, 4_294_967_295);
}

/// Two arrivals stored, one taken, three idle workers that have seen something.
fn base() -> Lent {
    let mut lent = Lent::with_stored(
        shape(WORKERS as u32, NODES as u32, BUCKETS as u32, 10),
        &[5, 15],
    );
    assert_eq!(lent.take_whole(1), took(5));
    lent
}

/// Whether each start and turn of a worker passes refusal 3; they must agree.
fn passes(lent: &Lent) -> bool {
    let calls = [
        lent.clone().put(0, 5),
        lent.clone().take(0),
        lent.clone().turn(0),
        lent.clone().take(WORKERS - 1),
        lent.clone().turn(WORKERS), // No such worker: 4, unless 3 comes first.
    ];
    let passed = calls.map(|answer| answer != refused(3));
    assert!(passed.iter().all(|&each| each == passed[0]), "{calls:?}");
    assert_eq!(passed[0], lent.is_in_range());
    passed[0]
}

/// The field is accepted at `good` values and refused at `bad` ones.
fn check(good: &[u64], bad: &[u64], set: impl Fn(&mut Lent, u64)) {
    check_from(base(), good, bad, set);
}

fn check_from(base: Lent, good: &[u64], bad: &[u64], set: impl Fn(&mut Lent, u64)) {
    for (values, expected) in [(good, true), (bad, false)] {
        for &value in values {
            let mut lent = base.clone();
            set(&mut lent, value);
            assert_eq!(passes(&lent), expected, "{value}");
        }
    }
}

#[test]
fn the_base_and_a_fresh_pool_pass() {
    assert!(passes(&base()));
    assert!(passes(&Lent::open(base().shape)));
}

#[test]
fn fixed_words() {
    let last = word::current(BUCKETS - 1, word::MAX_COUNT);
    check(
        &[0, word::MAX_COUNT, COUNT, last],
        &[last + 1, u64::MAX],
        |lent, value| lent.store[CURRENT] = value,
    );
    check(&[0, word::MAX_COUNT], &[COUNT, u64::MAX], |lent, value| {
        // At the largest count every start is refused by 11, which 3 precedes.
        lent.store[STARTED] = value
    });
    check(&[0, NODES - 1], &[NODES, u64::MAX], |lent, value| {
        lent.store[LAST_ALLOCATED] = value
    });
}

#[test]
fn heads_are_unmarked() {
    for bucket in 0..BUCKETS as usize {
        check(
            &[0, 2, 2 * NODES],
            &[1, 3, 2 * NODES + 1, 2 * NODES + 2, u64::MAX, u64::MAX - 1],
            |lent, value| *lent.head(bucket) = value,
        );
    }
}

#[test]
fn node_words() {
    for node in 0..NODES as usize {
        let words: [(usize, &[u64], &[u64]); 7] = [
            (
                field::LINK,
                &[0, 1, 2 * NODES, 2 * NODES + 1],
                &[2 * NODES + 2, 2 * NODES + 3, u64::MAX],
            ),
            (field::TIME, &[0, 20, word::MAX_COUNT], &[COUNT, u64::MAX]),
            (field::TICKET, &[0, word::MAX_COUNT], &[COUNT, u64::MAX]),
            (field::PATH, &[0, 65_535], &[65_536, u64::MAX]),
            (field::ORDER, &[0, 63], &[64, u64::MAX]),
            (field::DISTANCE, &[1, 1_024], &[1_025, u64::MAX]),
            (field::EPOCH, &[0, word::MAX_COUNT], &[COUNT, u64::MAX]),
        ];
        for (field, good, bad) in words {
            check(good, bad, |lent, value| {
                *lent.node_word(node, field) = value
            });
        }
    }
}

#[test]
fn reclamation_and_distance() {
    for node in 0..NODES as usize {
        for distance in [0, 1, 1_024, 1_025] {
            let set = |lent: &mut Lent, value| {
                *lent.node_word(node, field::DISTANCE) = distance;
                *lent.node_word(node, field::RECLAMATION) = value;
            };
            let used: &[u64] = &[1, 2, 3, COUNT, COUNT + 1];
            match distance {
                0 => check(&[0], used, set),
                1_025 => check(&[], &[0, 1, 2, 3, COUNT, COUNT + 1], set),
                _ => {
                    check(&[0], &[], set);
                    check(used, &[COUNT + 2, COUNT + 3, u64::MAX], set);
                }
            }
        }
    }
}

/// Checks a field in each worker's record, at this stage.
fn check_record(stage: u64, good: &[u64], bad: &[u64], set: fn(&mut Worker, u64)) {
    for worker in 0..WORKERS {
        let mut start = base();
        start.workers[worker] = record_at(stage);
        assert!(passes(&start));
        check_from(start, good, bad, |lent, value| {
            set(&mut lent.workers[worker], value)
        });
    }
}

#[test]
fn stages() {
    let idle_or_search = [0, 1, 2, 3];
    check_record(
        0,
        &idle_or_search,
        &[14, 15, COUNT, u64::MAX],
        |record, value| record.stage = value,
    );
    for stage in 0..=13 {
        check_record(stage, &[stage], &[14, u64::MAX], |record, value| {
            record.stage = value
        });
    }
}

#[test]
fn kinds_by_stage() {
    for stage in 0..=13 {
        let (good, bad): (&[u64], &[u64]) = match stage {
            0..=3 => (&[0, 1], &[2, u64::MAX]),
            4..=7 => (&[0], &[1, 2, u64::MAX]),
            _ => (&[1], &[0, 2, u64::MAX]),
        };
        check_record(stage, good, bad, |record, value| record.kind = value);
    }
}

#[test]
fn record_fields_at_every_stage() {
    let last = word::current(BUCKETS - 1, word::MAX_COUNT);
    for stage in 0..=13 {
        check_record(
            stage,
            &[0, NODES - 1],
            &[NODES, u64::MAX],
            |record, value| record.own = value,
        );
        let left = BUCKETS + NODES;
        check_record(stage, &[0, left - 1], &[left, u64::MAX], |record, value| {
            record.left = value
        });
        let link = 2 * NODES + 1;
        check_record(
            stage,
            &[0, 1, link - 1, link],
            &[link + 1, u64::MAX],
            |record, value| record.link_seen = value,
        );
        check_record(
            stage,
            &[0, word::MAX_COUNT, last],
            &[last + 1, u64::MAX],
            |record, value| record.current_seen = value,
        );
        check_record(
            stage,
            &[0, word::MAX_COUNT],
            &[COUNT, u64::MAX],
            |record, value| record.ticket = value,
        );
    }
}

#[test]
fn right_by_stage() {
    for stage in 0..=13 {
        let (good, bad): (&[u64], &[u64]) = match stage {
            2 | 3 | 10 | 11 => (&[0, NODES - 1], &[NODES, NODES + 1, u64::MAX]),
            _ => (&[0, NODES], &[NODES + 1, u64::MAX]),
        };
        check_record(stage, good, bad, |record, value| record.right = value);
    }
}

#[test]
fn bucket_by_stage() {
    for stage in 0..=13 {
        let (good, bad): (&[u64], &[u64]) = match stage {
            12 => (&[0], &[BUCKETS - 1, BUCKETS, u64::MAX]),
            _ => (&[0, BUCKETS - 1], &[BUCKETS, u64::MAX]),
        };
        check_record(stage, good, bad, |record, value| record.bucket = value);
    }
}

#[test]
fn one_bucket_allows_no_stage_12() {
    let mut lent = Lent::open(shape(1, 1, 1, 1));
    lent.workers[0] = record_at(12);
    assert_eq!(lent.turn(0), refused(3));
}

/// Ranges are all that is looked at: lists may loop or lead anywhere, times need
/// not fit their bucket, tickets may be ahead of the count.
#[test]
fn nothing_else_is_looked_at() {
    let mut lent = base();
    *lent.head(1) = 0;
    for node in 0..NODES as usize {
        *lent.node_word(node, field::LINK) = 0;
        *lent.node_word(node, field::TIME) = word::MAX_COUNT;
        *lent.node_word(node, field::TICKET) = word::MAX_COUNT;
        *lent.node_word(node, field::DISTANCE) = 1;
        *lent.node_word(node, field::RECLAMATION) = 1;
    }
    lent.workers[2].ticket = word::MAX_COUNT;
    assert!(passes(&lent));
}

/// A node never used, without a distance, hangs in a list and is marked: stage 3
/// unlinks it, and its distance is out of range from then on.
#[test]
fn the_one_leak() {
    let mut lent = Lent::open(shape(1, 2, 1, 10));
    *lent.head(0) = 0;
    *lent.node_word(0, field::LINK) = 5;
    *lent.node_word(1, field::RECLAMATION) = 1;
    *lent.node_word(1, field::DISTANCE) = 1;
    lent.store[STARTED] = 8;
    lent.workers[0] = Worker {
        own: 1,
        link_seen: 5,
        ..record_at(3)
    };
    assert_eq!(lent.turn(0), ON);
    assert_eq!(*lent.node_word(0, field::RECLAMATION), 10);
    assert_eq!((lent.stage(0), lent.workers[0].right), (4, 2));
    assert_eq!(lent.turn(0), refused(3));
    assert_eq!(lent.take(0), refused(3));
    assert_eq!(lent.put(0, 5), refused(3));
}

/// No call on memory in range panics, is refused by 3, or leaves the ranges but
/// by the one leak.
#[test]
fn any_memory_in_range() {
    let mut random = Random::new(1);
    for _ in 0..60_000 {
        let lent = lend(&any_in_range(&mut random));
        assert!(lent.is_in_range());
        for worker in 0..lent.shape.workers as usize {
            for call in 0..3 {
                let mut after = lent.clone();
                let answer = match call {
                    0 => after.put(worker, often_small(&mut random, 30) as u32),
                    1 => after.take(worker),
                    _ => after.turn(worker),
                };
                assert_ne!(answer, refused(3));
                let right = lent.workers[worker].right as usize;
                let leak = lent.stage(worker) == 3
                    && *after.node_word(right, field::DISTANCE) == 0
                    && *after.node_word(right, field::RECLAMATION) >= 2;
                assert_eq!(after.is_in_range(), !leak);
            }
        }
    }
}

/// One field or many out of range are refused by 3.
#[test]
fn any_memory_at_all() {
    let mut random = Random::new(2);
    for round in 0..60_000 {
        let mut memory = any_in_range(&mut random);
        let fields = fields(memory.shape);
        let damage = if round % 2 == 0 { 1 } else { fields.len() };
        for _ in 0..damage {
            let field = random.choose(&fields);
            let outside: Vec<u64> = memory.range(field).outside().collect();
            *memory.at(field) = random.choose(&outside);
        }
        let mut lent = lend(&memory);
        let worker = random.below(4) as usize;
        assert_eq!(lent.put(worker, random.draw() as u32), refused(3));
        assert_eq!(lent.take(worker), refused(3));
        assert_eq!(lent.turn(worker), refused(3));
    }
}
