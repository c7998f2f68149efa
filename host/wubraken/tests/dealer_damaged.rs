//! Dealt turns on memory that is damaged, too short, or handed in with no shape, against
//! the second program's.

mod common;

use common::both::Both;
use common::dealt::Table;
use common::lent::Deal;
use common::seeds::on_seeds;
use common::{shape, translate};
use schedule::lent::{fields, small_shape, Field, Memory};
use schedule::Random;
use second::layout::field;
use second::{word, Worker};
use wubraken::raw::kind;
use wubraken::Shape;

/// Who is served next, by the stages alone.
fn next(memory: &Memory, served: u64) -> Option<usize> {
    let workers = memory.shape.workers as usize;
    let behind = (1..=workers).map(|steps| (served as usize + steps) % workers);
    let mut behind = behind.filter(|_| served < workers as u64);
    behind.find(|&worker| memory.workers[worker].is_busy())
}

/// Whether a narrow dealt turn looks at a field before it does anything: at the first
/// three words, and at the record of the worker to be served. Who that is, the stages say,
/// also one that is out of range.
fn looks_at(memory: &Memory, served: u64, field: Field) -> bool {
    match field {
        Field::Current | Field::Started | Field::LastAllocated => true,
        Field::Head(_) | Field::Node(..) => false,
        Field::Record(worker, _) => next(memory, served) == Some(worker),
    }
}

/// 3 comes before 4 and 16, and behind 1 and 2.
#[test]
fn each_field_pushed_out_of_its_range() {
    on_seeds("dealt, each field", |random| {
        for _ in 0..60 {
            let small = small_shape(random);
            let shape = translate::shape_back(small);
            let mut memory = Memory::in_range(random, small);
            for field in fields(small) {
                let held = *memory.at(field);
                for value in memory.range(field).outside() {
                    *memory.at(field) = value;
                    check_damaged(random, &memory, shape, field);
                }
                *memory.at(field) = held;
            }
        }
    });
}

fn check_damaged(random: &mut Random, memory: &Memory, shape: Shape, field: Field) {
    let lent = Both::with_spare(memory, 2, 1);
    let deal = |shape, served, deal| lent.clone().deal(shape, served, deal).answer.number;
    for served in (0..=shape.workers).chain([u64::MAX]) {
        let most = random.between(1, 12).into();
        for whole in [Deal::One, Deal::Run(1), Deal::Run(most)] {
            assert_eq!(deal(shape, served, whole), 3, "{field:?}");
        }
        let is_refused = deal(shape, served, Deal::Narrow(1)) == 3;
        assert_eq!(is_refused, looks_at(memory, served, field), "{field:?}");
        // The second program says how far it goes.
        deal(shape, served, Deal::Narrow(most));
    }
    let crowded = shape.workers + 3;
    for deal_one in Deal::ones() {
        assert_eq!(deal(Shape { width: 0, ..shape }, crowded, deal_one), 1);
        let workers = crowded;
        assert_eq!(deal(Shape { workers, ..shape }, crowded, deal_one), 2);
    }
}

/// Runs that meet damage in their midst, or not at all, whatever the words hold.
#[test]
fn damage_all_over() {
    on_seeds("dealt, damage all over", |random| {
        let mut in_the_midst = [0; 2];
        for _ in 0..4_000 {
            let small = small_shape(random);
            let mut memory = Memory::in_range(random, small);
            for _ in 0..random.between(1, 4) {
                let field = random.choose(&fields(small));
                let outside: Vec<u64> = memory.range(field).outside().collect();
                *memory.at(field) = random.choose(&outside);
            }
            let mut table = Table::of(&memory, random.below(small.workers).into());
            for _ in 0..4 {
                let most = random.between(1, 20).into();
                let mut single = table.clone();
                let expected = single.one_by_one(Deal::Narrow(1), most);
                let dealt = table.deal(Deal::Narrow(most));
                assert_eq!(dealt, expected);
                table.assert_same(&single);
                let is_refused = dealt.answer.number == 3;
                in_the_midst[usize::from(is_refused && dealt.turns > 0)] += 1;
            }
        }
        assert!(in_the_midst.iter().all(|&runs| runs > 100));
    });
}

/// No turns: nothing is looked at, however little is lent.
#[test]
fn no_turns_on_any_memory() {
    let shapes = [
        shape(2, 4, 2, 10),
        shape(0, 0, 0, 0),
        shape(u64::MAX, 1, 1, 1),
    ];
    for shape in shapes {
        for (words, records) in [(0, 0), (1, 0), (37, 2)] {
            for served in [0, 2, u64::MAX] {
                for run in Deal::runs(0) {
                    let dealt = Both::garbage(words, records).deal(shape, served, run);
                    let answer = dealt.answer;
                    assert_eq!((answer.kind, answer.number), (kind::ON, 0));
                    assert_eq!((dealt.dealer, dealt.turns), (served, 0));
                }
            }
        }
    }
}

/// At and past every limit of the shape, and one word or record short.
#[test]
fn shapes_outside_their_limits_and_short_memory() {
    let largest = shape(64, 4_096, 256, 65_535);
    for sound in [shape(1, 1, 1, 1), shape(3, 4, 2, 10), largest] {
        let Shape {
            workers,
            nodes,
            buckets,
            width,
        } = sound;
        let (words, records) = (sound.words().unwrap(), workers as usize);
        for served in [0, workers, u64::MAX] {
            for deal in [Deal::One, Deal::Run(u64::MAX), Deal::Narrow(u64::MAX)] {
                let number = |shape, words, records| {
                    let dealt = Both::garbage(words, records).deal(shape, served, deal);
                    assert_eq!((dealt.dealer, dealt.turns), (served, 0));
                    dealt.answer.number
                };
                for past in [0, 1 << 32, u64::MAX] {
                    for outside in [
                        shape(past, nodes, buckets, width),
                        shape(workers, past, buckets, width),
                        shape(workers, nodes, past, width),
                        shape(workers, nodes, buckets, past),
                    ] {
                        assert_eq!(number(outside, words, records), 1);
                        assert_eq!(number(outside, 0, 0), 1);
                    }
                }
                for (words, records) in [(words - 1, records), (words, records - 1), (0, 0)] {
                    assert_eq!(number(sound, words, records), 2);
                }
                assert_eq!(number(sound, words, records), 3);
            }
        }
    }
}

/// Stage 3 unlinks a node that no put has had, with distance 0: that is out of range
/// then. A whole run ends there, behind its first turn; narrow turns go on.
#[test]
fn a_turn_may_put_the_memory_out_of_range() {
    let mut memory = Memory::zeros(37, 2);
    memory.open(translate::shape(shape(2, 4, 2, 10))).unwrap();
    *memory.head(0) = word::link(2);
    *memory.node_word(2, field::LINK) = word::marked(word::link(4));
    for worker in &mut memory.workers {
        *worker = Worker {
            stage: 3,
            right: 2,
            link_seen: word::marked(word::link(4)),
            ..Worker::default()
        };
    }
    for (deal, turns, number) in [
        (Deal::One, 1, 0),
        (Deal::Run(1), 1, 0),
        (Deal::Run(u64::MAX), 1, 3),
        (Deal::Narrow(u64::MAX), 9, 0),
    ] {
        let mut table = Table::of(&memory, 0);
        let dealt = table.deal(deal);
        assert_eq!(
            (dealt.turns, dealt.answer.number),
            (turns, number),
            "{deal:?}"
        );
        assert_eq!(table.clone().deal(Deal::One).answer.number, 3);
    }
}
