//! Words beyond a shape's layout and records beyond its workers are not touched,
//! not even read: the lengths count them, but they lie behind a fence. In a
//! batch that is the shape of which it has the most workers. Of a narrow take or
//! turn the same holds of the other workers' records, and of the words behind the
//! last one of its rule. A narrow dealt turn goes over the others' records.
#![cfg(target_os = "linux")]

mod common;

use std::collections::BTreeSet;

use common::both::Both;
use common::draw::any_arrival;
use common::fenced::Fenced;
use common::lent::{Call, Deal, Lent};
use common::seeds::on_seeds;
use common::translate;
use schedule::lent::{small_shape, Memory};
use schedule::script::{bytes, put_arrival, take, turn};
use schedule::Random;
use second::layout::{field, HEADS, LAST_ALLOCATED};
use second::Record;
use wubraken::raw::kind::{BEGUN, EMPTY, ON, REFUSED, STORED, TOOK};
use wubraken::raw::{kind, stop};
use wubraken::{Shape, Worker};

const SPARE: usize = 5;
const MEMORIES: usize = 2_000;
/// How many workers an opening may have more than the shape before it.
const MORE: usize = 3;

/// Runs calls on memory in range that ends where its layout does, and so many
/// records behind the workers'.
fn on_each_memory(test: &str, more: usize, calls: impl Fn(&mut Random, Shape, Lent)) {
    on_seeds(test, |random| {
        let (mut store_pages, mut table_pages) = (Fenced::new(), Fenced::new());
        for _ in 0..MEMORIES {
            let small = small_shape(random);
            let memory = Memory::in_range(random, small);
            let store = store_pages.lend(&memory.store, true);
            let mut workers = translate::table_back(&memory.workers);
            workers.resize(workers.len() + more, Worker::default());
            let table = table_pages.lend(&workers, true);
            let mut lent = Lent::of(store, table);
            lent.words += SPARE;
            lent.records += SPARE;
            calls(random, translate::shape_back(small), lent);
        }
    });
}

fn open(lent: Lent, shape: Shape) {
    assert_eq!(lent.call(shape, Call::Open).kind, kind::OPEN);
}

/// The numbers that a worker's calls are refused by, those of the narrow ones last.
fn refusals(lent: Lent, random: &mut Random, shape: Shape, worker: u64) -> [u64; 6] {
    let arrival = any_arrival(random, shape);
    let [enqueue, dequeue, step] = Call::of_worker(worker, arrival);
    // Such memory may lead in a circle.
    let turns = random.below(12).into();
    let [a, b, c] = Call::narrow_of_worker(worker, arrival, turns);
    [enqueue, dequeue, step, a, b, c].map(|call| lent.call(shape, call).number)
}

/// The lines of a turn file.
fn run_batch(lent: Lent, shape: Shape, file: &[u8]) -> String {
    let mut out = [0; 4_096];
    let end = lent.run_batch(shape, file, &mut out);
    assert_eq!(end.stop, stop::DRAINED);
    String::from_utf8(out[..end.written as usize].to_vec()).unwrap()
}

/// A start of each kind and some turns of a worker.
fn records_of(random: &mut Random, shape: Shape, worker: u8) -> Vec<u8> {
    let arrival = translate::arrival(any_arrival(random, shape));
    let put = put_arrival(worker, arrival);
    bytes(&[turn(worker), put, take(worker), turn(worker)])
}

#[test]
fn single_calls_stay_inside() {
    on_each_memory("beyond, single calls", 0, |random, shape, lent| {
        for _ in 0..4 {
            for worker in 0..shape.workers {
                assert!(!refusals(lent, random, shape, worker).contains(&4));
            }
        }
        open(lent, shape);
        let no_record = lent.records as u64;
        assert_eq!(refusals(lent, random, shape, no_record), [4; 6]);
    });
}

#[test]
fn dealt_turns_stay_inside() {
    on_each_memory("beyond, dealt turns", 0, |random, shape, lent| {
        // Such memory may lead in a circle.
        let turns = random.below(12).into();
        let forms = [Deal::One, Deal::Run(turns), Deal::Narrow(turns)];
        for served in 0..shape.workers {
            for form in forms {
                assert_ne!(lent.deal(shape, served, form).answer.number, 4);
            }
        }
        open(lent, shape);
        for served in shape.workers..=lent.records as u64 {
            for form in Deal::ones() {
                assert_eq!(lent.deal(shape, served, form).answer.number, 4);
            }
        }
        for form in Deal::ones() {
            assert_eq!(lent.deal(shape, 0, form).answer.number, 16);
        }
    });
}

#[test]
fn batches_stay_inside() {
    on_each_memory("beyond, batches", 0, |random, shape, lent| {
        let mut file = Vec::new();
        for _ in 0..4 {
            for worker in 0..shape.workers as u8 {
                file.extend(records_of(random, shape, worker));
            }
        }
        assert!(!run_batch(lent, shape, &file).contains("no 4"));
        for workers in [
            Shape::MAX_WORKERS + 1,
            lent.records as u64 + 1,
            shape.workers,
        ] {
            let opened = translate::shape(Shape { workers, ..shape });
            Record::Open(opened).encode(&mut file);
        }
        assert!(run_batch(lent, shape, &file).ends_with("no 1\nno 2\nopen\n"));
        let no_worker = records_of(random, shape, shape.workers as u8);
        assert_eq!(run_batch(lent, shape, &no_worker), "no 4\n".repeat(4));
    });
}

#[test]
fn openings_in_a_batch_stay_inside() {
    on_each_memory("beyond, openings", MORE, |random, shape, lent| {
        let most = shape.workers as u32 + MORE as u32;
        let mut file = Vec::new();
        for workers in [random.between(1, most), most, random.between(1, most)] {
            let opened = Shape {
                workers: workers.into(),
                ..shape
            };
            Record::Open(translate::shape(opened)).encode(&mut file);
            for worker in 0..=workers as u8 {
                file.extend(records_of(random, opened, worker));
            }
        }
        let lines = run_batch(lent, shape, &file);
        assert_eq!(lines.matches("open\n").count(), 3);
        assert_eq!(lines.matches("no 4\n").count(), 3 * 4);
    });
}

/// Of a shape outside its limits not even the first record is there.
#[test]
fn batches_of_no_shape_touch_no_record() {
    on_each_memory("beyond, no shape", 0, |random, shape, lent| {
        let nothing = Lent {
            table: lent.table.wrapping_add(lent.records - SPARE),
            records: SPARE,
            ..lent
        };
        let file = records_of(random, shape, 0);
        let none = Shape {
            workers: Shape::MAX_WORKERS + 1,
            ..shape
        };
        assert_eq!(run_batch(nothing, none, &file), "no 1\n".repeat(4));
    });
}

/// A worker past the shape's, whose record is lent all the same.
#[test]
fn records_of_no_worker_are_refused() {
    on_each_memory("beyond, no worker", 0, |random, shape, lent| {
        open(lent, shape);
        for worker in shape.workers..lent.records as u64 {
            assert_eq!(refusals(lent, random, shape, worker), [4; 6]);
        }
    });
}

/// The last word that the turn of a record may touch, by its stage.
fn last_word(shape: Shape, record: &Worker) -> u64 {
    let head = |bucket| 2 + 1 + bucket;
    let node = |node| head(shape.buckets) + 8 * node + 7;
    let cell = |cell: u64| match cell.checked_sub(shape.buckets) {
        None => head(cell),
        Some(behind) => node(behind),
    };
    // A search of a dequeue may end, and answer what the own node holds.
    let answered = match record.kind {
        1 => node(record.own),
        _ => 2,
    };
    match record.stage {
        1 => head(record.bucket).max(answered),
        2 => node(record.right).max(node(record.own)),
        3 => cell(record.left).max(node(record.right)).max(answered),
        4 => node(record.own),
        5 => cell(record.left),
        9 => head(record.bucket),
        10 | 11 => node(record.right),
        _ => 2,
    }
}

/// The last word that a narrow start or turn of a worker may touch. Node 0 is free
/// for a put.
fn last_word_of(shape: Shape, call: Call, memory: &Memory) -> usize {
    let last = match call {
        Call::NarrowEnqueue(..) => 2 + shape.buckets + 8,
        Call::NarrowStep(worker, _) => {
            let records = translate::table_back(&memory.workers);
            last_word(shape, &records[worker as usize])
        }
        _ => 2,
    };
    last as usize
}

/// On a take's start and on a turn the other records lie behind fences, on either
/// side; on all, the words behind the last one that may be touched do.
#[test]
fn narrow_calls_touch_what_they_need() {
    on_seeds("beyond, narrow calls", |random| {
        let (mut store_pages, mut table_pages) = (Fenced::new(), Fenced::new());
        let mut kinds = BTreeSet::new();
        for _ in 0..MEMORIES {
            let small = small_shape(random);
            let shape = translate::shape_back(small);
            let mut memory = Memory::in_range(random, small);
            // The next node, when the search for a free one goes round, is 0.
            memory.store[LAST_ALLOCATED] = shape.nodes - 1;
            *memory.node_word(0, field::RECLAMATION) = 0;
            let worker = random.draw() % shape.workers;
            for call in Call::narrow_of_worker(worker, any_arrival(random, shape), 0) {
                let mut both = Both::with_spare(&memory, 0, 0);
                let expected = both.call(shape, call);
                let words = last_word_of(shape, call, &memory) + 1;
                let store = store_pages.lend(&memory.store[..words], true);
                let table = translate::table_back(&memory.workers);
                let (own, at_the_end) = (worker as usize, random.one_in(2));
                let mut lent = match call {
                    Call::NarrowEnqueue(..) => Lent::of(store, table_pages.lend(&table, true)),
                    _ => {
                        let record = table_pages.lend(&table[own..=own], at_the_end);
                        let mut lent = Lent::of(store, record);
                        lent.table = lent.table.wrapping_sub(own);
                        lent
                    }
                };
                (lent.words, lent.records) = (memory.store.len(), table.len());
                assert_eq!(lent.call(shape, call), expected, "{call:?}");
                assert_eq!(store, &both.store()[..words], "{call:?}");
                // SAFETY: its record lies between the fences.
                let record = unsafe { *lent.table.wrapping_add(own) };
                assert_eq!(Some(record), both.record(own), "{call:?}");
                kinds.insert(expected.kind);
            }
        }
        let all = [BEGUN, ON, STORED, TOOK, EMPTY, REFUSED];
        assert_eq!(kinds, BTreeSet::from(all));
    });
}

/// The words behind the last one that the turn may touch lie behind a fence.
#[test]
fn narrow_dealt_turns_touch_what_they_need() {
    on_seeds("beyond, narrow dealt turns", |random| {
        let (mut store_pages, mut table_pages) = (Fenced::new(), Fenced::new());
        let mut kinds = BTreeSet::new();
        for _ in 0..2 * MEMORIES {
            let small = small_shape(random);
            let shape = translate::shape_back(small);
            let memory = Memory::in_range(random, small);
            let before = random.draw() % (shape.workers + 1);
            let mut both = Both::with_spare(&memory, 0, 0);
            let expected = both.deal(shape, before, Deal::Narrow(1));
            let (served, table) = (expected.dealer, translate::table_back(&memory.workers));
            let mut words = HEADS;
            if expected.turns > 0 {
                words = words.max(last_word(shape, &table[served as usize]) as usize + 1);
            }
            let store = store_pages.lend(&memory.store[..words], true);
            let mut lent = Lent::of(store, table_pages.lend(&table, true));
            lent.words = memory.store.len();
            let dealt = lent.deal(shape, before, Deal::Narrow(1));
            assert_eq!(dealt, expected);
            assert_eq!(store, &both.store()[..words]);
            kinds.insert((dealt.answer.kind, dealt.answer.number));
        }
        let ended = [ON, STORED, TOOK, EMPTY].map(|kind| (kind, 0));
        let refused = [4, 11, 16].map(|number| (REFUSED, number));
        assert_eq!(kinds, ended.into_iter().chain(refused).collect());
    });
}
