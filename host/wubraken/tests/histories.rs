//! Narrow calls after an opening: whatever starts and turns, and however many at a
//! time, they answer and leave what the second program says, and what the calls
//! that look at all of the memory do, one by one.

mod common;

use std::collections::BTreeSet;

use common::both::Both;
use common::draw::any_arrival;
use common::lent::Call;
use common::seeds::on_seeds;
use common::{shape, translate};
use schedule::lent::small_shape;
use schedule::Random;
use wubraken::raw::{self, kind};
use wubraken::Shape;

const HISTORIES: usize = 1_000;
const CALLS: usize = 150;

/// Mostly small; now and then one with room for long lists and many workers.
fn any_shape(random: &mut Random) -> Shape {
    match random.below(4) {
        0 => shape(
            random.between(1, 8).into(),
            random.between(1, 24).into(),
            random.between(1, 6).into(),
            random.between(1, 10).into(),
        ),
        _ => translate::shape_back(small_shape(random)),
    }
}

/// Mostly what the worker can do; the most turns that follow.
fn any_call(random: &mut Random, lent: &Both, shape: Shape) -> (Call, u64) {
    let worker = match random.below(64) {
        0 => shape.workers,
        1 => u64::MAX,
        _ => random.draw() % shape.workers,
    };
    let is_busy = lent
        .record(worker as usize)
        .map_or(false, |it| it.stage > 0);
    let is_odd = random.one_in(16);
    let call = match (is_busy != is_odd, random.below(5)) {
        (true, _) => Call::Step(worker),
        (false, 0..=2) => Call::Enqueue(worker, any_arrival(random, shape)),
        (false, _) => Call::Dequeue(worker),
    };
    let few = random.below(10).into();
    (call, random.choose(&[0, 0, 1, few, few, u64::MAX]))
}

/// The start or turn, and then turns one by one while the call goes on.
fn one_by_one(lent: &mut Both, shape: Shape, call: Call, turns: u64) -> raw::Answer {
    let worker = match call {
        Call::Enqueue(worker, _) | Call::Dequeue(worker) | Call::Step(worker) => worker,
        other => panic!("{other:?} is not of a worker, or narrow"),
    };
    let mut answer = lent.call(shape, call);
    let mut left = turns;
    while left > 0 && [kind::BEGUN, kind::ON].contains(&answer.kind) {
        answer = lent.call(shape, Call::Step(worker));
        left -= 1;
    }
    answer
}

#[test]
fn narrow_calls_are_as_the_others() {
    on_seeds("histories", |random| {
        let mut seen = BTreeSet::new();
        for _ in 0..HISTORIES {
            let shape = any_shape(random);
            let (words, records) = (shape.words().unwrap(), shape.workers as usize);
            let mut whole = Both::garbage(words + 2, records + 1);
            whole.call(shape, Call::Open);
            let mut narrow = whole.clone();
            let mut mixed = whole.clone();
            for _ in 0..CALLS {
                let (call, turns) = any_call(random, &whole, shape);
                let expected = one_by_one(&mut whole, shape, call, turns);
                let answer = narrow.call(shape, call.narrow(turns));
                assert_eq!(answer, expected, "{shape:?} {call:?} {turns}");
                narrow.assert_same_memory(&whole);

                let answer = match random.one_in(2) {
                    true => one_by_one(&mut mixed, shape, call, turns),
                    false => mixed.call(shape, call.narrow(turns)),
                };
                assert_eq!(answer, expected, "{shape:?} {call:?} {turns}");
                mixed.assert_same_memory(&whole);
                seen.insert((answer.kind, answer.number));
            }
        }
        let refused = [4, 5, 9, 10, 12].map(|number| (kind::REFUSED, number));
        let kinds = [kind::BEGUN, kind::ON, kind::STORED, kind::TOOK, kind::EMPTY];
        let all = kinds.map(|kind| (kind, 0)).into_iter().chain(refused);
        assert_eq!(seen, all.collect());
    });
}
