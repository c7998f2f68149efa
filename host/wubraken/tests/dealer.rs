//! Dealt turns against the second program's, one at a time and in runs, whole and narrow:
//! after an opening, and on any memory in range. Store, table, dealer, turns and answer
//! are compared at every call.

mod common;

use std::collections::{BTreeMap, BTreeSet};

use common::dealt::Table;
use common::lent::{Call, Deal};
use common::seeds::on_seeds;
use common::{shape, translate, ARRIVAL};
use schedule::lent::{small_shape, Memory};
use schedule::script::arrival;
use schedule::{to_the_end, Random};
use second::layout::CURRENT;
use second::word::MAX_COUNT;
use second::Response;
use wubraken::raw::kind;
use wubraken::Shape;

/// Few workers, many, and one; mostly with room for lists.
fn any_shape(random: &mut Random) -> Shape {
    let workers = match random.below(8) {
        0 => 1,
        1 => Shape::MAX_WORKERS,
        2 => random.between(9, 63).into(),
        _ => random.between(2, 8).into(),
    };
    let (nodes, buckets) = (random.between(1, 24), random.between(1, 6));
    shape(workers, nodes.into(), buckets.into(), 10)
}

/// How many turns a run may have: few, none, or as many as it needs.
fn any_limit(random: &mut Random) -> u64 {
    let few = random.below(20).into();
    random.choose(&[0, 1, few, few, u64::MAX, u64::MAX])
}

/// Starts at any time; each run in every form, and turn by turn, is the same.
#[test]
fn dealt_histories() {
    on_seeds("dealt histories", |random| {
        let mut seen = BTreeSet::new();
        for _ in 0..150 {
            let mut table = Table::open(any_shape(random));
            let one_in = random.choose(&[1, 2, 8, 40]);
            for _ in 0..60 {
                table.begin_some(random, one_in);
                if random.one_in(16) {
                    // The host may step a worker by itself.
                    let worker = random.draw() % table.shape.workers;
                    table.lent.call(table.shape, Call::NarrowStep(worker, 0));
                }
                let most = any_limit(random);
                let mut expected = table.clone();
                let one = random.choose(&Deal::ones());
                let dealt = expected.one_by_one(one, most);
                for run in Deal::runs(most) {
                    let mut other = table.clone();
                    assert_eq!(other.deal(run), dealt, "{run:?}");
                    other.assert_same(&expected);
                }
                table = expected;
                seen.insert((dealt.answer.kind, dealt.answer.number));
            }
        }
        let ended = [kind::ON, kind::STORED, kind::TOOK, kind::EMPTY].map(|kind| (kind, 0));
        let all = ended.into_iter().chain([(kind::REFUSED, 16)]);
        assert_eq!(seen, all.collect());
    });
}

/// Mostly a worker of the shape.
fn any_served(random: &mut Random, shape: Shape) -> u64 {
    let worker = random.draw() % shape.workers;
    match random.below(24) {
        0 => shape.workers,
        1 => worker | 1 << 32,
        2 => u64::MAX,
        _ => worker,
    }
}

/// Lists may lead anywhere there: so runs have a limit.
#[test]
fn dealt_turns_on_any_memory_in_range() {
    on_seeds("dealt, any memory", |random| {
        let mut seen = BTreeSet::new();
        for _ in 0..6_000 {
            let small = small_shape(random);
            let shape = translate::shape_back(small);
            let memory = Memory::in_range(random, small);
            for served in (0..=shape.workers).chain([any_served(random, shape)]) {
                let table = Table::of(&memory, served);
                let most = random.below(16).into();
                for [run, one] in [
                    [Deal::Run(most), Deal::One],
                    [Deal::Narrow(most), Deal::Narrow(1)],
                ] {
                    let (mut whole, mut single) = (table.clone(), table.clone());
                    let dealt = whole.deal(run);
                    assert_eq!(single.one_by_one(one, most), dealt);
                    single.assert_same(&whole);
                    let refused = dealt.answer.number;
                    seen.insert((run == Deal::Run(most), dealt.turns > 0, refused));
                }
            }
        }
        // 3 only behind a turn: in the whole form by what stage 3 left, in the narrow one
        // never, as links in range lead to records in range.
        let whole = [
            (false, 0),
            (false, 4),
            (false, 16),
            (true, 0),
            (true, 3),
            (true, 11),
        ];
        let narrow = whole.into_iter().filter(|&(_, number)| number != 3);
        let narrow = narrow.map(|(dealt, number)| (false, dealt, number));
        let whole = whole.map(|(dealt, number)| (true, dealt, number));
        assert_eq!(seen, whole.into_iter().chain(narrow).collect());
    });
}

/// At the largest shape, with all workers at work.
#[test]
fn the_most_workers_one_after_the_other() {
    let mut table = Table::open(shape(64, 4_096, 256, 65_535));
    for worker in 0..64 {
        let put = Call::NarrowEnqueue(worker, ARRIVAL, 0);
        table.lent.call(table.shape, put);
    }
    let workers = (0..64).cycle();
    for (worker, form) in workers.zip(Deal::ones().into_iter().cycle()).take(3 * 64) {
        let dealt = table.deal(form);
        assert_eq!((dealt.dealer, dealt.turns), (worker, 1));
        assert_eq!(dealt.answer.kind, kind::ON);
    }
}

/// From any moment on a worker in progress waits for at most as many turns as there are
/// workers, whatever begins; and the longest wait is that long.
#[test]
fn nobody_waits_for_more_turns_than_workers() {
    on_seeds("dealt, waiting", |random| {
        for workers in [1, 2, 7, 64] {
            let mut table = Table::open(shape(workers, 70, 3, 10));
            let mut waits = vec![0; workers as usize];
            let mut longest = 0;
            for _ in 0..20 * workers {
                let was_busy: Vec<bool> = (0..workers).map(|it| table.is_busy(it)).collect();
                let one_in = random.choose(&[1, 3, 30]);
                table.begin_some(random, one_in);
                for (wait, was_busy) in waits.iter_mut().zip(was_busy) {
                    *wait = if was_busy { *wait } else { 0 };
                }
                let deal = random.choose(&Deal::ones());
                let dealt = table.deal(deal);
                for worker in (0..workers).filter(|_| dealt.turns > 0) {
                    let wait = &mut waits[worker as usize];
                    *wait += 1;
                    if worker == dealt.dealer {
                        longest = longest.max(*wait);
                        *wait = 0;
                    }
                    assert!(*wait < workers || !table.is_busy(worker));
                }
            }
            assert_eq!(longest, workers);
        }
    });
}

/// A pool at its last epoch, with 20 arrivals behind the current bucket.
fn at_its_last_epoch(workers: u64) -> Memory {
    let shape = translate::shape(shape(workers, 40, 3, 10));
    let mut memory = Memory::zeros(shape.store_words(), shape.workers as usize);
    memory.open(shape).unwrap();
    for time in 10..30 {
        memory.put(0, arrival(time)).unwrap();
        let (_, stored) = to_the_end(100, Ok(Response::On), || memory.turn(0));
        assert!(matches!(stored, Ok(Response::Stored(_))));
    }
    memory.store[CURRENT] = MAX_COUNT;
    memory
}

/// A put into the current bucket finds no epoch left: it never ends, and its turns are
/// refused by 11, but for those after a take has moved current. The takes of the others go
/// on, and end.
#[test]
fn nobody_is_held_up_by_11() {
    on_seeds("dealt, last epoch", |random| {
        for workers in [2, 3, 64] {
            let mut table = Table::of(&at_its_last_epoch(workers), workers - 1);
            let stuck = random.draw() % workers;
            let put = Call::NarrowEnqueue(stuck, ARRIVAL, 4);
            table.lent.call(table.shape, put);
            let mut seen = BTreeMap::new();
            for _ in 0..2_000 {
                for worker in (0..workers).filter(|&it| it != stuck) {
                    if !table.is_busy(worker) {
                        table.lent.call(table.shape, Call::NarrowDequeue(worker, 0));
                    }
                }
                let most = any_limit(random);
                let run = random.choose(&Deal::runs(most));
                let mut single = table.clone();
                let expected = single.one_by_one(Deal::One, most);
                let dealt = table.deal(run);
                assert_eq!(dealt, expected);
                table.assert_same(&single);
                let record = table.lent.record(stuck as usize).unwrap();
                assert!([6, 7].contains(&record.stage));
                let answer = (dealt.answer.kind, dealt.answer.number);
                assert!(answer.1 != 11 || dealt.dealer == stuck);
                *seen.entry(answer).or_insert(0) += 1;
            }
            // Its arrival is taken, too.
            assert_eq!(seen[&(kind::TOOK, 0)], 21);
            let often = [(kind::EMPTY, 0), (kind::REFUSED, 11)];
            assert!(often.iter().all(|answer| seen[answer] > 20), "{seen:?}");
        }
    });
}
