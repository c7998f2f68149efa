//! Lent memory out of range, field by field and all over. A narrow call looks only
//! at some fields, and goes on with whatever the others hold.

mod common;

use std::collections::BTreeSet;

use common::both::Both;
use common::draw::{any_arrival, any_memory};
use common::guarded::GARBAGE_RECORD;
use common::lent::Call;
use common::seeds::on_seeds;
use common::{translate, ARRIVAL};
use schedule::lent::{fields, small_shape, Field, Memory, RecordField};
use schedule::Random;
use second::layout::HEADS;
use wubraken::raw::kind;
use wubraken::{Shape, Worker};

const MEMORIES: usize = 400;

/// Makes each call of each worker, and of none; whether 3 refuses all of them.
/// None does, or all do.
fn is_out_of_range(memory: &Memory) -> bool {
    let shape = translate::shape_back(memory.shape);
    let lent = Both::with_spare(memory, 2, 1);
    let calls = (0..=shape.workers).flat_map(|worker| Call::of_worker(worker, ARRIVAL));
    let refused: Vec<bool> = calls
        .map(|call| lent.clone().call(shape, call).number == 3)
        .collect();
    assert!(refused.iter().all(|&each| each == refused[0]), "{memory:?}");
    refused[0]
}

/// Whether a narrow call looks at a field before it does anything: at the first
/// three words and at its worker's record; a put at every worker's.
fn looks_at(call: Call, field: Field) -> bool {
    match (field, call) {
        (Field::Current | Field::Started | Field::LastAllocated, _) => true,
        (Field::Head(_) | Field::Node(..), _) => false,
        (Field::Record(..), Call::NarrowEnqueue(..)) => true,
        (Field::Record(of, _), Call::NarrowDequeue(worker, _) | Call::NarrowStep(worker, _)) => {
            of as u64 == worker
        }
        (Field::Record(..), other) => panic!("{other:?} is not narrow"),
    }
}

/// Makes each narrow call of each worker, and of none, on memory with this field out
/// of range: it is refused by 3 exactly where it looks at it.
fn check_narrow(random: &mut Random, memory: &Memory, damaged: Field) {
    let shape = translate::shape_back(memory.shape);
    let lent = Both::with_spare(memory, 2, 1);
    for worker in (0..=shape.workers).chain([u64::MAX]) {
        for call in Call::narrow_of_worker(worker, any_arrival(random, shape), 0) {
            let is_refused = lent.clone().call(shape, call).number == 3;
            assert_eq!(is_refused, looks_at(call, damaged), "{call:?} {damaged:?}");
            // The second program says how far it goes.
            let turns = random.below(MOST_TURNS).into();
            lent.clone().call(shape, call.narrow(turns));
        }
    }
}

/// Turns of one narrow call: damaged memory may lead in a circle.
const MOST_TURNS: u32 = 20;

/// Narrow calls one after the other, whatever they are answered; how many did
/// something.
fn walk(random: &mut Random, lent: &mut Both, shape: Shape) -> u32 {
    let mut done = 0;
    for _ in 0..12 {
        let worker = random.draw() % (shape.workers + 1);
        let turns = random.below(MOST_TURNS).into();
        let calls = Call::narrow_of_worker(worker, any_arrival(random, shape), turns);
        // Mostly turns.
        let call = calls[random.choose(&[0, 1, 2, 2, 2])];
        done += u32::from(lent.call(shape, call).kind != kind::REFUSED);
    }
    done
}

/// Refusals that come before 3, and the opening that needs no range.
fn check_what_is_not_3(memory: &Memory) {
    let shape = translate::shape_back(memory.shape);
    let lent = Both::with_spare(memory, 0, 0);
    assert_eq!(lent.clone().call(shape, Call::Open).kind, kind::OPEN);

    let wide = Shape { width: 0, ..shape };
    let crowded = Shape {
        workers: shape.workers + 1,
        ..shape
    };
    for call in [Call::Step(0), Call::NarrowStep(0, 5)] {
        assert_eq!(lent.clone().call(wide, call).number, 1);
        assert_eq!(lent.clone().call(crowded, call).number, 2);
    }
}

#[test]
fn each_field_pushed_out_of_its_range() {
    on_seeds("each field", |random| {
        for _ in 0..MEMORIES {
            let shape = small_shape(random);
            let mut memory = Memory::in_range(random, shape);
            assert!(!is_out_of_range(&memory));
            for field in fields(shape) {
                let held = *memory.at(field);
                for value in memory.range(field).outside() {
                    *memory.at(field) = value;
                    assert!(is_out_of_range(&memory), "{field:?}: {value}");
                    if random.one_in(4) {
                        check_narrow(random, &memory, field);
                    }
                }
                check_what_is_not_3(&memory);
                *memory.at(field) = held;
            }
        }
    });
}

/// Stages are left out: each has its own ranges of other fields.
#[test]
fn each_field_at_its_bounds() {
    on_seeds("each bound", |random| {
        for _ in 0..MEMORIES {
            let shape = small_shape(random);
            let mut memory = Memory::in_range(random, shape);
            for field in fields(shape) {
                if matches!(field, Field::Record(_, RecordField::Stage)) {
                    continue;
                }
                let held = *memory.at(field);
                let range = memory.range(field);
                for value in [range.least, range.most] {
                    *memory.at(field) = value;
                    assert!(!is_out_of_range(&memory), "{field:?}: {value}");
                }
                *memory.at(field) = held;
            }
        }
    });
}

/// The other fields of its record decide whether a stage is in range.
#[test]
fn every_stage_in_any_record() {
    on_seeds("every stage", |random| {
        let mut seen = [[false; 2]; 14];
        for _ in 0..4 * MEMORIES {
            let shape = small_shape(random);
            let mut memory = Memory::in_range(random, shape);
            let record = Field::Record(random.below(shape.workers) as usize, RecordField::Stage);
            for (stage, seen) in seen.iter_mut().enumerate() {
                *memory.at(record) = stage as u64;
                seen[usize::from(is_out_of_range(&memory))] = true;
            }
        }
        // Idle, and the search before its first turn, go with any record of a kind.
        for (stage, seen) in seen.iter().enumerate() {
            assert_eq!(*seen, [true, stage > 1], "stage {stage}");
        }
    });
}

#[test]
fn damage_all_over() {
    on_seeds("damage all over", |random| {
        for _ in 0..10 * MEMORIES {
            let shape = small_shape(random);
            let mut memory = Memory::in_range(random, shape);
            for word in &mut memory.store {
                strike(random, word);
            }
            for field in fields(shape) {
                if matches!(field, Field::Record(..)) {
                    strike(random, memory.at(field));
                }
            }
            // Whether anything was struck out of its range, both must say.
            is_out_of_range(&memory);
            check_what_is_not_3(&memory);
            let mut lent = Both::with_spare(&memory, 2, 1);
            walk(random, &mut lent, translate::shape_back(shape));
        }
    });
}

/// 6 is not given since Q-1: not in memory that is sound, damaged or too short, of small
/// shapes or of none, and at any time; all that a start or turn can be refused by are given.
#[test]
fn no_call_answers_6() {
    on_seeds("no 6", |random| {
        let mut given = BTreeSet::new();
        for _ in 0..5 * MEMORIES {
            let small = small_shape(random);
            let memory = any_memory(random, small);
            let lent = Both::new(&memory.store, &memory.table);
            let shape = translate::shape_back(small);
            let width = random.choose(&[shape.width, shape.width, shape.width, 0]);
            for worker in 0..=shape.workers {
                let arrival = any_arrival(random, shape);
                let turns = random.below(MOST_TURNS).into();
                let narrow = Call::narrow_of_worker(worker, arrival, turns);
                for call in Call::of_worker(worker, arrival).into_iter().chain(narrow) {
                    let answer = lent.clone().call(Shape { width, ..shape }, call);
                    given.insert(answer.number);
                }
            }
        }
        let all = [0, 1, 2, 3, 4, 5, 9, 10, 11, 12];
        assert_eq!(given, BTreeSet::from(all));
    });
}

/// Memory for a shape, every field of it this one number.
fn all_of(shape: Shape, number: u64) -> (Vec<u64>, Vec<Worker>) {
    let record = Worker {
        stage: number,
        kind: number,
        own: number,
        bucket: number,
        left: number,
        right: number,
        seen: number,
        current: number,
        ticket: number,
    };
    let words = vec![number; shape.words().unwrap()];
    (words, vec![record; shape.workers as usize])
}

#[test]
fn all_ones() {
    on_seeds("all ones", |random| {
        for _ in 0..MEMORIES {
            let shape = translate::shape_back(small_shape(random));
            let (store, table) = all_of(shape, u64::MAX);
            let lent = Both::new(&store, &table);
            let workers = (0..=shape.workers).chain([u64::MAX]);
            for call in workers.flat_map(|it| Call::narrow_of_worker(it, ARRIVAL, u64::MAX)) {
                assert_eq!(lent.clone().call(shape, call).number, 3, "{call:?}");
            }
        }
    });
}

/// What narrow calls look at first is in range, the rest is anything: they go on
/// with the words they find.
#[test]
fn any_words_behind_those_looked_at() {
    on_seeds("any words", |random| {
        let mut done = 0;
        for _ in 0..10 * MEMORIES {
            let small = small_shape(random);
            let shape = translate::shape_back(small);
            let sound = Memory::in_range(random, small);
            let (mut store, mut table) = all_of(shape, u64::MAX);
            // Some links lead somewhere.
            let some = [u64::MAX, random.draw(), 0, 1, 2, 3, 4, 5, 6, 7, 8, 9];
            store.fill_with(|| random.choose(&some));
            store[..HEADS].copy_from_slice(&sound.store[..HEADS]);
            for (record, sound) in table.iter_mut().zip(translate::table_back(&sound.workers)) {
                *record = random.choose(&[sound, sound, sound, sound, GARBAGE_RECORD]);
            }
            done += walk(random, &mut Both::new(&store, &table), shape);
        }
        assert!(done > 5 * MEMORIES as u32, "{done} calls did something");
    });
}

/// Sometimes flips a bit or writes anything.
fn strike(random: &mut Random, word: &mut u64) {
    match random.below(60) {
        0 => *word ^= 1 << random.below(64),
        1 => *word ^= 1 << random.below(4),
        2 => *word = random.draw(),
        _ => {}
    }
}
