//! The energy of what is taken, at every distance and in every way of calling: that of
//! the second program, and right by multiplication.

mod common;

use common::both::Both;
use common::lent::Call;
use common::seeds::on_seeds;
use common::{shape, ARRIVAL};
use schedule::distances::every_distance;
use schedule::script::{bytes, take, turn};
use second::layout::{field, node_at};
use second::{LENT_RECORDS, LENT_WORDS};
use spreading::{is_energy, wide_distances};
use wubraken::raw::{self, kind};
use wubraken::{Arrival, Pool, Put, Refusal, Shape, Stop, Take, LINE};

const SHAPE: Shape = shape(1, 2, 2, 10);

/// Makes a call of worker 0 to its end: what the end is answered, or the refusal.
type Way = fn(&mut Both, Call) -> raw::Answer;

const WAYS: [Way; 3] = [whole, turn_by_turn, in_one_go];

fn whole(lent: &mut Both, start: Call) -> raw::Answer {
    to_the_end(lent, start, Call::Step(0))
}

/// By narrow calls.
fn turn_by_turn(lent: &mut Both, start: Call) -> raw::Answer {
    to_the_end(lent, start.narrow(0), Call::NarrowStep(0, 0))
}

/// By a narrow call.
fn in_one_go(lent: &mut Both, start: Call) -> raw::Answer {
    lent.call(SHAPE, start.narrow(u64::MAX))
}

fn to_the_end(lent: &mut Both, start: Call, turn: Call) -> raw::Answer {
    let mut answer = lent.call(SHAPE, start);
    while [kind::BEGUN, kind::ON].contains(&answer.kind) {
        answer = lent.call(SHAPE, turn);
    }
    answer
}

fn opened() -> Both {
    let mut lent = Both::garbage(SHAPE.words().unwrap(), 1);
    lent.call(SHAPE, Call::Open);
    lent
}

/// Memory in which node 0 holds [`ARRIVAL`], with some of its words written over.
fn stored_with(words: &[(usize, u64)]) -> Both {
    let mut lent = opened();
    let put = in_one_go(&mut lent, Call::Enqueue(0, ARRIVAL));
    assert_eq!(put.kind, kind::STORED);
    let mut store = lent.store().to_vec();
    for &(field, word) in words {
        store[node_at(2, 0) + field] = word;
    }
    Both::new(&store, lent.table())
}

fn at(distance: u32) -> Arrival {
    Arrival {
        distance,
        ..ARRIVAL
    }
}

fn is_in_range(distance: u32) -> bool {
    (1..=Arrival::MAX_DISTANCE).contains(&distance)
}

#[track_caller]
fn assert_energy(distance: u64, energy: u64) {
    assert!(is_energy(distance, energy), "{energy} at {distance}");
}

/// Put and taken; 0 and 1,025 are refused.
#[test]
fn at_every_distance() {
    for way in WAYS {
        let mut lent = opened();
        for distance in 0..=Arrival::MAX_DISTANCE + 1 {
            let put = way(&mut lent, Call::Enqueue(0, at(distance)));
            if !is_in_range(distance) {
                assert_eq!(put.number, 5);
                continue;
            }
            assert_eq!(put.kind, kind::STORED);
            let taken = way(&mut lent, Call::Dequeue(0));
            assert_eq!((taken.kind, taken.distance), (kind::TOOK, distance.into()));
            assert_energy(taken.distance, taken.energy);
        }
    }
}

/// The same by the wrapper.
#[test]
fn put_and_take_at_every_distance() {
    let mut pool = Pool::new(SHAPE).unwrap();
    for distance in 0..=Arrival::MAX_DISTANCE + 1 {
        let put = pool.put(0, at(distance), u64::MAX);
        if !is_in_range(distance) {
            assert_eq!(put, Err(Refusal::BadArrival));
            continue;
        }
        assert_eq!(put, Ok(Put::Stored(u64::from(distance) * 2 - 1)));
        match pool.take(0, u64::MAX) {
            Ok(Take::Took(taken)) => {
                assert_eq!(Arrival::from(taken), at(distance));
                assert_eq!(taken.energy, second::energy(distance.into()));
                assert_energy(distance.into(), taken.energy.into());
            }
            other => panic!("{other:?}"),
        }
    }
}

/// The script's energies are known by multiplication.
#[test]
fn every_distance_in_a_batch() {
    let script = every_distance();
    let expected = script.output();
    let mut lent = Both::garbage(LENT_WORDS, LENT_RECORDS);
    let room = expected.len() + LINE;
    let (end, lines) = lent.run_batch(&mut Shape::default(), &script.bytes(), room);
    assert_eq!(end.stop, Stop::Drained);
    assert!(lines == expected.as_bytes(), "the lines differ");
}

/// A narrow take answers whatever its node holds.
#[test]
fn whatever_a_node_holds() {
    on_seeds("whatever a node holds", |random| {
        let drawn: Vec<u64> = (0..1_000).map(|_| random.draw()).collect();
        for distance in (0..=4_100).chain(wide_distances()).chain(drawn) {
            let mut any = || random.choose(&[0, 1 << 16, 1 << 32, u64::MAX]);
            let (time, path, order) = (any(), any(), any());
            let lent = stored_with(&[
                (field::TIME, time),
                (field::PATH, path),
                (field::ORDER, order),
                (field::DISTANCE, distance),
            ]);
            for way in [turn_by_turn, in_one_go] {
                let taken = way(&mut lent.clone(), Call::Dequeue(0));
                let expected = raw::Answer {
                    kind: kind::TOOK,
                    time,
                    path,
                    order,
                    distance,
                    energy: taken.energy,
                    ..raw::Answer::default()
                };
                assert_eq!(taken, expected);
                assert_energy(distance, taken.energy);
            }
        }
    });
}

/// In a node that a put has had, distance 0 is out of range (rule C3). In another it is
/// answered by the turn that puts the node out of range (S18, S19).
#[test]
fn distance_0_in_a_node() {
    let with_standing =
        |standing| stored_with(&[(field::DISTANCE, 0), (field::RECLAMATION, standing)]);
    let refused = with_standing(1).call(SHAPE, Call::Dequeue(0));
    assert_eq!(refused.number, 3);

    let mut lent = with_standing(0);
    let taken = whole(&mut lent, Call::Dequeue(0));
    let (distance, energy) = (taken.distance, taken.energy);
    assert_eq!((taken.kind, distance, energy), (kind::TOOK, 0, 0));
    assert_eq!(lent.call(SHAPE, Call::Dequeue(0)).number, 3);

    let records = [vec![take(0)], vec![turn(0); 7], vec![take(0)]].concat();
    let mut shape = SHAPE;
    let (end, lines) = with_standing(0).run_batch(&mut shape, &bytes(&records), 200);
    assert_eq!(end.stop, Stop::Drained);
    let expected = "begun 2\non\non\non\non\non\non\ntook 5 7 1 0\nno 3\n";
    assert_eq!(lines, expected.as_bytes());
}
