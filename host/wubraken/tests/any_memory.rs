//! The single calls on any memory in range, against the second program. There the
//! narrow ones are as the others.

mod common;

use std::collections::BTreeSet;

use common::both::{calls_made, Both};
use common::draw::any_arrival;
use common::lent::Call;
use common::seeds::on_seeds;
use common::translate;
use schedule::lent::{often_small, small_shape, Memory};
use schedule::Random;
use wubraken::raw::{self, kind};
use wubraken::Shape;

const MEMORIES: usize = 20_000;
const WALK: usize = 24;

/// Mostly a worker of the shape.
fn any_worker(random: &mut Random, shape: Shape) -> u64 {
    let worker = random.draw() % shape.workers;
    match random.below(32) {
        0 => shape.workers,
        1 => worker | 1 << 32,
        2 => u64::MAX,
        _ => worker,
    }
}

fn any_call(random: &mut Random, shape: Shape) -> Call {
    let worker = any_worker(random, shape);
    let call = match random.below(16) {
        0..=2 => Call::Enqueue(worker, any_arrival(random, shape)),
        3..=5 => Call::Dequeue(worker),
        _ => Call::Step(worker),
    };
    match random.below(4) {
        0 => call.narrow(0),
        // Such memory may lead in a circle.
        1 => call.narrow(random.below(12).into()),
        _ => call,
    }
}

/// A narrow call without further turns is as the other.
fn check_narrow(lent: &Both, shape: Shape, call: Call, whole: &Both, answer: raw::Answer) {
    let mut narrow = lent.clone();
    assert_eq!(narrow.call(shape, call.narrow(0)), answer, "{call:?}");
    narrow.assert_same_memory(whole);
}

/// A worker's stage before a turn, the kind of its answer, and the stage after.
type Turn = (u64, u64, u64);

/// Makes a call, and notes the turn that it is. Left out are turns of no worker
/// and those refused since stage 3 has left the ranges.
fn note(both: &mut Both, shape: Shape, call: Call, turns: &mut BTreeSet<Turn>) -> raw::Answer {
    let stage = |both: &Both| match call {
        Call::Step(worker) | Call::NarrowStep(worker, 0) => {
            Some(both.record(worker as usize)?.stage)
        }
        _ => None,
    };
    let before = stage(both);
    let answer = both.call(shape, call);
    if let (Some(before), Some(after), false) =
        (before, stage(both), [3, 4].contains(&answer.number))
    {
        turns.insert((before, answer.kind, after));
    }
    answer
}

/// Every way that a turn of a stage can end.
fn all_turns() -> BTreeSet<Turn> {
    let on = |stage: u64, next: &[u64]| -> Vec<Turn> {
        next.iter().map(|&next| (stage, kind::ON, next)).collect()
    };
    let mut turns = BTreeSet::new();
    for (stage, next) in [
        (1, &[2, 4][..]),
        (2, &[2, 3, 4]),
        (3, &[1, 2, 4]),
        (4, &[5]),
        (5, &[1, 6]),
        (6, &[7]),
        (7, &[6]),
        (8, &[9]),
        (9, &[10, 12, 13]),
        (10, &[8, 10, 11, 12, 13]),
        (11, &[1, 10]),
        (12, &[8, 9]),
        (13, &[8]),
    ] {
        turns.extend(on(stage, next));
    }
    turns.extend([1, 2, 3].map(|stage| (stage, kind::TOOK, 0)));
    turns.extend([6, 7].map(|stage| (stage, kind::STORED, 0)));
    turns.insert((13, kind::EMPTY, 0));
    turns.extend([(0, kind::REFUSED, 0), (7, kind::REFUSED, 7)]);
    turns
}

/// On each memory every call of every worker, and then a walk of calls.
#[test]
fn every_call_on_any_memory_in_range() {
    on_seeds("any memory in range", |random| {
        let mut turns = BTreeSet::new();
        let mut refusals = BTreeSet::new();
        for _ in 0..MEMORIES {
            let small = small_shape(random);
            let shape = translate::shape_back(small);
            let memory = Memory::in_range(random, small);
            let spare = (often_small(random, 3), often_small(random, 3));
            let lent = Both::with_spare(&memory, spare.0 as usize, spare.1 as usize);

            let mut calls = vec![Call::Open];
            for worker in 0..=shape.workers {
                calls.extend(Call::of_worker(worker, any_arrival(random, shape)));
            }
            for call in calls {
                let mut whole = lent.clone();
                let answer = note(&mut whole, shape, call, &mut turns);
                refusals.insert(answer.number);
                check_narrow(&lent, shape, call, &whole, answer);
            }

            let mut lent = lent;
            for _ in 0..WALK {
                let call = any_call(random, shape);
                note(&mut lent, shape, call, &mut turns);
            }
        }
        assert_eq!(turns, all_turns());
        assert_eq!(refusals, BTreeSet::from([0, 4, 5, 9, 10, 11, 12]));
    });
    assert!(calls_made() >= 500_000, "{} calls", calls_made());
}
