//! Narrow calls on memory of every kind: equal to the others where all is in range,
//! refused by 3 for what they look at and for nothing else. What the rules do with
//! words out of range is in `narrow_by_hand`.

mod common;

use common::*;
use schedule::lent::{fields, often_small, Field};
use schedule::script::shape;
use schedule::{script, Generator, Options, Random};
use second::layout::{field, CURRENT, LAST_ALLOCATED, STARTED};
use second::{Answer, Arrival, Record, Response, Shape, Worker, LENT_RECORDS, LENT_WORDS};

fn all_calls(time: u32) -> [Call; 3] {
    [Call::Put(arrival(time)), Call::Take, Call::Turn]
}

// Histories.

/// The record's operation as a narrow call; an opening has none.
fn apply(memory: &mut Memory, record: Record, turns: u64) -> Answer {
    match record {
        Record::Open(shape) => memory.open(shape),
        Record::EnqueueStart { worker, arrival } => {
            narrow(memory, worker.into(), Call::Put(arrival), turns)
        }
        Record::DequeueStart { worker } => narrow(memory, worker.into(), Call::Take, turns),
        Record::Step { worker } => narrow(memory, worker.into(), Call::Turn, turns),
    }
}

fn assert_same(memory: &Memory, generator: &Generator) {
    let program = generator.program();
    assert_eq!(memory.shape, program.shape());
    assert_eq!(memory.store, program.store());
    assert_eq!(memory.workers, program.workers());
}

/// Narrow or not, each start and turn after an opening is the same.
#[test]
fn narrow_and_whole_calls_mixed_in_histories() {
    for seed in 300..320 {
        let mut generator = Generator::new(seed, Options::default());
        let mut random = Random::new(seed);
        let mut memory = Memory::zeros(LENT_WORDS, LENT_RECORDS);
        for _ in 0..3_000 {
            let (record, expected) = generator.next_record();
            let answer = match random.below(2) {
                0 => apply(&mut memory, record, 0),
                _ => memory.apply(record),
            };
            assert_eq!(answer, expected);
            assert_same(&memory, &generator);
        }
    }
}

fn goes_on(answer: Answer) -> bool {
    matches!(answer, Ok(Response::Begun(_) | Response::On))
}

/// The record and then turns of its worker, as a run has them.
fn follow(generator: &mut Generator, record: Record, turns: u64) -> Answer {
    let mut answer = generator.apply(record);
    let worker = match record {
        Record::Open(_) => return answer,
        Record::EnqueueStart { worker, .. }
        | Record::DequeueStart { worker }
        | Record::Step { worker } => worker,
    };
    for _ in 0..turns {
        if !goes_on(answer) {
            break;
        }
        answer = generator.apply(script::turn(worker));
    }
    answer
}

/// Runs of any length in a history are the turns of the other calls, one by one.
#[test]
fn runs_in_histories() {
    for seed in 400..420 {
        let mut generator = Generator::new(seed, Options::default());
        let mut random = Random::new(seed);
        let mut memory = Memory::zeros(LENT_WORDS, LENT_RECORDS);
        for _ in 0..2_000 {
            let record = generator.propose();
            let turns = u64::from(random.length(5)) - 1;
            let expected = follow(&mut generator, record, turns);
            assert_eq!(apply(&mut memory, record, turns), expected);
            assert_same(&memory, &generator);
        }
    }
}

// Runs.

/// A call and its turns, each a narrow call of its own.
fn one_by_one(lent: &mut Lent, worker: usize, call: Call, turns: u64) -> Answer {
    let mut answer = lent.narrow(worker, call, 0);
    for _ in 0..turns {
        if !goes_on(answer) {
            break;
        }
        answer = lent.narrow(worker, Call::Turn, 0);
    }
    answer
}

/// For every limit, on memory in range and on damaged memory, where a refusal may
/// come after some turns.
#[test]
fn runs_are_turns_one_by_one() {
    let mut random = Random::new(3);
    let mut refused_later = 0;
    for round in 0..600 {
        let lent = if round % 2 == 0 {
            lend(&any_in_range(&mut random))
        } else {
            lend(&damaged_beyond_sight(&mut random))
        };
        let worker = random.below(lent.shape.workers) as usize;
        for call in all_calls(random.below(10)) {
            for turns in 0..=30 {
                let (mut run, mut single) = (lent.clone(), lent.clone());
                let answer = run.narrow(worker, call, turns);
                assert_eq!(answer, one_by_one(&mut single, worker, call, turns));
                assert_eq!(run, single);
                refused_later += usize::from(answer.is_err() && run != lent);
            }
        }
    }
    assert!(refused_later > 100);
}

/// The numbers of turns are those of the cases by hand.
#[test]
fn a_limit_used_up_is_an_answer() {
    let fresh = Lent::open(shape(2, 4, 2, 10));
    let put = Call::Put(arrival(5));
    for (turns, answer, stage) in [
        (0, begun(1), 1),
        (1, ON, 4),
        (4, ON, 7),
        (5, stored(1), 0),
        (6, stored(1), 0),
        (u64::MAX, stored(1), 0),
    ] {
        let mut lent = fresh.clone();
        assert_eq!(lent.narrow(0, put, turns), answer);
        assert_eq!(lent.stage(0), stage);
    }

    // A call left in progress is gone on with, here by turns of both kinds.
    let mut lent = fresh.clone();
    assert_eq!(lent.narrow(0, put, 1), ON);
    assert_eq!(lent.narrow(0, put, 1), refused(9));
    assert_eq!(lent.narrow(0, Call::Turn, 1), ON);
    assert_eq!(lent.turn(0), ON);
    assert_eq!(lent.stage(0), 7);
    assert_eq!(lent.narrow(0, Call::Turn, 1), stored(1));
    assert_eq!(lent.narrow(0, Call::Turn, 1), refused(10));

    let stored = lent;
    for (turns, answer, stage) in [(0, begun(2), 8), (6, ON, 3), (7, took(5), 0)] {
        let mut lent = stored.clone();
        assert_eq!(lent.narrow(1, Call::Take, turns), answer);
        assert_eq!(lent.stage(1), stage);
    }
    // The turn itself and four more.
    let mut lent = fresh;
    lent.take(1).unwrap();
    assert_eq!(lent.clone().narrow(1, Call::Turn, 3), ON);
    assert_eq!(lent.narrow(1, Call::Turn, 4), EMPTY);
}

/// Whole calls in the smallest and the largest shape, at the last time and where the
/// buckets would end.
#[test]
fn calls_run_to_their_end_at_the_limits() {
    for shape in [shape(1, 1, 1, 1), shape(64, 4_096, 256, 65_535)] {
        let mut lent = Lent::open(shape);
        let worker = shape.workers as usize - 1;
        let times = [shape.span() - 1, shape.span(), u32::MAX];
        for (round, time) in (0..).zip(times) {
            let put = Call::Put(arrival(time));
            assert_eq!(lent.narrow(worker, put, u64::MAX), stored(3 * round + 1));
            assert_eq!(lent.narrow(worker, Call::Take, u64::MAX), took(time.into()));
            assert_eq!(lent.narrow(worker, Call::Take, u64::MAX), EMPTY);
        }
    }
}

/// A run in a list that leads back to itself ends with its limit.
#[test]
fn a_run_round_a_cycle() {
    let mut lent = Lent::with_stored(shape(1, 4, 1, 100), &[10, 20]);
    lent.put(0, 30).unwrap();
    *lent.node_word(1, field::LINK) = 0;
    assert_eq!(lent.narrow(0, Call::Turn, 10_001), ON);
    // After the head 10,001 nodes were passed, node 0 first and last.
    assert_eq!((lent.stage(0), lent.workers[0].right), (2, 1));
}

/// Refusal 11 after the turns that lead to it.
#[test]
fn a_refusal_after_turns_leaves_them() {
    let mut lent = Lent::open(shape(1, 4, 1, 10));
    lent.store[CURRENT] = u32::MAX.into();
    assert_eq!(lent.narrow(0, Call::Put(arrival(5)), u64::MAX), refused(11));
    assert_eq!(lent.stage(0), 7);
    assert_eq!(lent.store[STARTED], 1);
    assert_eq!(lent.times(0), [5]);
    assert_eq!(lent.narrow(0, Call::Turn, 5), refused(11));
}

// What refusal 3 looks at.

/// What a narrow call on this worker looks at.
fn looked_at(shape: Shape, worker: usize, call: Call) -> Vec<Field> {
    let is_looked_at = |field: &Field| match *field {
        Field::Current | Field::Started | Field::LastAllocated => true,
        Field::Record(other, _) => other == worker || matches!(call, Call::Put(_)),
        Field::Head(_) | Field::Node(..) => false,
    };
    fields(shape).into_iter().filter(is_looked_at).collect()
}

fn is_looked_at_in_range(memory: &mut Memory, worker: usize, call: Call) -> bool {
    let looked_at = looked_at(memory.shape, worker, call);
    let in_range = |&field: &Field| {
        let stage_12_of_one_bucket = memory.shape.buckets == 1
            && matches!(field, Field::Record(of, _) if memory.workers[of].stage == 12);
        !stage_12_of_one_bucket && memory.range(field).contains(*memory.at(field))
    };
    looked_at.iter().all(in_range)
}

/// In range but for some heads and nodes.
fn damaged_beyond_sight(random: &mut Random) -> Memory {
    let mut memory = any_in_range(random);
    for field in fields(memory.shape) {
        let is_beyond = matches!(field, Field::Head(_) | Field::Node(..));
        if is_beyond && random.one_in(6) {
            *memory.at(field) = outside(random, &memory, field);
        }
    }
    memory
}

/// A value out of the field's range.
fn outside(random: &mut Random, memory: &Memory, field: Field) -> u64 {
    let outside: Vec<u64> = memory.range(field).outside().collect();
    random.choose(&outside)
}

/// Any memory in range, grown from an opening or not: narrow or not is the same.
#[test]
fn equal_where_all_is_in_range() {
    let mut random = Random::new(4);
    for _ in 0..20_000 {
        let lent = lend(&any_in_range(&mut random));
        let worker = random.below(lent.shape.workers + 1) as usize;
        for call in all_calls(often_small(&mut random, 30) as u32) {
            let (mut narrow, mut whole) = (lent.clone(), lent.clone());
            assert_eq!(narrow.narrow(worker, call, 0), whole.whole(worker, call));
            assert_eq!(narrow, whole);
        }
    }
}

/// Each field looked at, pushed out of its range on its own, at every stage.
#[test]
fn each_field_looked_at_is_refused_by_3() {
    let mut random = Random::new(5);
    for _ in 0..600 {
        let memory = any_in_range(&mut random);
        let worker = random.below(memory.shape.workers) as usize;
        for call in all_calls(5) {
            for field in looked_at(memory.shape, worker, call) {
                for value in memory.range(field).outside() {
                    let mut lent = lend(&memory);
                    *lent.at(field) = value;
                    assert_eq!(lent.narrow(worker, call, 0), refused(3), "{field:?}");
                    let before = lent.clone();
                    assert_eq!(lent.narrow(worker, call, 9), refused(3));
                    assert_eq!(lent, before);
                }
            }
        }
    }
}

/// Stage 12 in the last bucket, right at the end where a node is needed: in range
/// for other stages, out of it for these.
#[test]
fn ranges_by_stage() {
    let mut lent = Lent::open(shape(2, 4, 2, 10));
    for stage in 0..=14 {
        let mut record = record_at(stage);
        record.right = 4;
        lent.workers[0] = record;
        let is_out = matches!(stage, 2 | 3 | 10 | 11 | 14);
        let refused_by_3 = lent.clone().narrow(0, Call::Turn, 0) == refused(3);
        assert_eq!(refused_by_3, is_out, "{stage}");

        record.right = 0;
        record.bucket = 1;
        lent.workers[0] = record;
        let refused_by_3 = lent.clone().narrow(0, Call::Turn, 0) == refused(3);
        assert_eq!(refused_by_3, matches!(stage, 12 | 14), "{stage}");
    }
}

/// A neighbour's record matters to the start of a put only, busy or idle; one
/// behind the shape's workers to nobody.
#[test]
fn a_neighbours_record() {
    for stage in [0, 9, 14] {
        let mut lent = Lent::open(shape(3, 4, 2, 10));
        lent.take(0).unwrap();
        lent.workers[2] = Worker {
            left: 6,
            ..record_at(stage)
        };
        assert_eq!(lent.turn(0), refused(3));
        for worker in [0, 1, 2, 3, usize::MAX] {
            assert_eq!(lent.narrow(worker, Call::Put(arrival(5)), 0), refused(3));
        }
        assert_eq!(lent.narrow(1, Call::Take, 0), begun(2));
        assert_eq!(lent.narrow(1, Call::Turn, 3), ON);
        assert_eq!(lent.narrow(0, Call::Turn, 9), EMPTY);
        assert_eq!(lent.narrow(2, Call::Turn, 0), refused(3));
        assert_eq!(lent.narrow(2, Call::Take, 0), refused(3));

        lent.workers[2] = Worker::default();
        lent.workers[3] = GARBAGE_RECORD;
        assert_eq!(lent.narrow(2, Call::Put(arrival(5)), 0), begun(3));
    }
}

/// Without a worker there is no record to look at; the first words come before.
#[test]
fn no_such_worker() {
    for worker in [2, 3, 64, usize::MAX] {
        let mut lent = Lent::open(shape(2, 4, 2, 10));
        // Neither the arrival nor heads and nodes come before 4.
        let wrong = Arrival {
            distance: 0,
            ..arrival(20)
        };
        *lent.head(0) = u64::MAX;
        *lent.node_word(0, field::LINK) = u64::MAX;
        for call in [Call::Put(wrong), Call::Take, Call::Turn] {
            assert_eq!(lent.narrow(worker, call, 7), refused(4));
        }
        for (word, value) in [(CURRENT, 2 << 32), (STARTED, 1 << 32), (LAST_ALLOCATED, 4)] {
            let mut lent = lent.clone();
            lent.store[word] = value;
            for call in [Call::Put(wrong), Call::Take, Call::Turn] {
                assert_eq!(lent.narrow(worker, call, 7), refused(3));
            }
        }
        lent.workers[1].kind = 2;
        assert_eq!(lent.narrow(worker, Call::Put(wrong), 7), refused(3));
        assert_eq!(lent.narrow(worker, Call::Take, 7), refused(4));
        assert_eq!(lent.narrow(worker, Call::Turn, 7), refused(4));
    }
}

// What the rules read.

/// Heads and nodes that a call reads (RULES, tables I to K and L2). All standings
/// for the start of a put, though it stops at the first free node.
fn read_by(memory: &Memory, worker: usize, call: Call) -> Vec<Field> {
    let record = memory.workers[worker];
    let (own, right) = (record.own as usize, record.right as usize);
    let head = Field::Head(record.bucket as usize);
    let left = match (record.left as usize).checked_sub(memory.shape.buckets as usize) {
        None => Field::Head(record.left as usize),
        Some(node) => Field::Node(node, field::LINK),
    };
    let nodes = 0..memory.shape.nodes as usize;
    let mut read = match (call, record.stage) {
        (Call::Put(_), _) => nodes
            .map(|node| Field::Node(node, field::RECLAMATION))
            .collect(),
        (Call::Take, _) => vec![],
        (Call::Turn, 1 | 9) => vec![head],
        (Call::Turn, 2) => vec![
            Field::Node(right, field::LINK),
            Field::Node(right, field::TIME),
            Field::Node(right, field::ORDER),
            Field::Node(right, field::TICKET),
            Field::Node(own, field::TIME),
            Field::Node(own, field::ORDER),
            Field::Node(own, field::TICKET),
        ],
        (Call::Turn, 3 | 5) => vec![left],
        (Call::Turn, 10) => vec![
            Field::Node(right, field::LINK),
            Field::Node(right, field::EPOCH),
        ],
        (Call::Turn, 11) => vec![Field::Node(right, field::LINK)],
        (Call::Turn, _) => vec![],
    };
    // A search of a take may answer what the own node holds.
    if matches!((call, record.stage), (Call::Turn, 1..=3)) && record.kind == 1 {
        let answered = [field::TIME, field::PATH, field::ORDER, field::DISTANCE];
        read.extend(answered.map(|word| Field::Node(own, word)));
    }
    read
}

/// Heads and nodes that a call has written without reading them, after it.
fn written_by(before: &Memory, after: &Memory, worker: usize, call: Call) -> Vec<Field> {
    let (record, own) = (before.workers[worker], after.workers[worker].own as usize);
    let unlinked = after.workers[worker].stage != 1;
    match (call, record.stage) {
        (Call::Put(_), 0) => [
            field::TIME,
            field::TICKET,
            field::PATH,
            field::ORDER,
            field::DISTANCE,
        ]
        .map(|word| Field::Node(own, word))
        .to_vec(),
        (Call::Turn, 3) if unlinked => {
            vec![Field::Node(record.right as usize, field::RECLAMATION)]
        }
        (Call::Turn, 4) => vec![
            Field::Node(own, field::EPOCH),
            Field::Node(own, field::LINK),
        ],
        _ => vec![],
    }
}

/// Whatever a call neither looks at nor reads may hold anything: the answer is the
/// same, and so is the memory, but for that field where no rule writes it.
#[test]
fn damage_that_no_rule_reads_is_not_noticed() {
    let mut random = Random::new(6);
    let mut begun_or_moved = 0;
    for round in 0..30_000 {
        let sane = any_in_range(&mut random);
        let worker = random.below(sane.shape.workers) as usize;
        let time = random.below(10);
        let call = random.choose(&all_calls(time));
        let mut expected = sane.clone();
        let answer = narrow(&mut expected, worker, call, 0);

        let mut kept = looked_at(sane.shape, worker, call);
        kept.extend(read_by(&sane, worker, call));
        let written = match answer {
            Ok(_) => written_by(&sane, &expected, worker, call),
            Err(_) => vec![],
        };
        let mut damaged = sane.clone();
        for field in fields(sane.shape) {
            let is_chosen = round % 2 == 0 || random.one_in(20);
            if is_chosen && !kept.contains(&field) {
                let value = outside(&mut random, &sane, field);
                *damaged.at(field) = value;
                if !written.contains(&field) {
                    *expected.at(field) = value;
                }
            }
        }
        let mut lent = lend(&damaged);
        assert_eq!(lent.narrow(worker, call, 0), answer);
        assert_eq!(lent, lend(&expected), "{call:?} of {worker} on {sane:?}");
        begun_or_moved += u32::from(answer.is_ok());
    }
    assert!(begun_or_moved > 10_000);
}

// Any memory.

/// Any words in memory of any length, of a shape that may be outside its limits.
fn any_memory(random: &mut Random) -> Lent {
    let mut memory = any_in_range(random);
    overwrite(random, &mut memory);
    let mut lent = match random.below(2) {
        0 => lend(&memory),
        _ => Lent::from(memory),
    };
    match random.below(16) {
        0 => lent.store.clear(),
        1 => lent.store.truncate(random.between(1, 60) as usize),
        2 => lent.workers.truncate(random.below(3) as usize),
        3 => lent.shape = shape(0, 0, 0, 0),
        4 => lent.shape = shape(64, 4_096, 256, 65_535),
        5 => lent.shape = shape(u32::MAX, u32::MAX, u32::MAX, u32::MAX),
        6 => lent.shape = shape(1, 1, 1, 1),
        _ => {}
    }
    lent
}

/// Puts words of any size where they may not belong.
fn overwrite(random: &mut Random, memory: &mut Memory) {
    let (pattern, damage) = (random.below(4), random.length(6));
    let same = random.choose(&[0, 1, 2, GARBAGE, u64::MAX - 1, u64::MAX]);
    for field in fields(memory.shape) {
        let any_size = random.draw() >> random.below(64);
        let is_in_sight = !matches!(field, Field::Head(_) | Field::Node(..));
        match pattern {
            0 => *memory.at(field) = same,
            1 if !is_in_sight => *memory.at(field) = same,
            2 if !is_in_sight => *memory.at(field) = any_size,
            3 if random.one_in(damage) => *memory.at(field) = any_size,
            _ => {}
        }
    }
}

/// The same memory with nothing beyond.
fn without_spare(lent: &Lent) -> Lent {
    let mut bare = lent.clone();
    bare.store.truncate(lent.shape.store_words());
    bare.workers.truncate(lent.shape.workers as usize);
    bare
}

/// The number of the refusal from 1 to 4 that applies, if one does.
fn first_refusal(memory: &mut Memory, worker: usize, call: Call) -> Option<u8> {
    let shape = memory.shape;
    if !shape.is_within_limits() {
        return Some(1);
    }
    let records = shape.workers as usize;
    if memory.store.len() < shape.store_words() || memory.workers.len() < records {
        return Some(2);
    }
    if !is_looked_at_in_range(memory, worker, call) {
        return Some(3);
    }
    (worker >= records).then_some(4)
}

/// Always an answer, and no refusal but for its reason. [`Lent::narrow`] sees that
/// nothing else is written; what lies beyond is not read either.
#[test]
fn any_memory_at_all() {
    let mut random = Random::new(7);
    let mut passed = 0;
    for _ in 0..60_000 {
        let before = any_memory(&mut random);
        let worker = random.choose(&[0, 0, 0, 1, 2, 3, 64, usize::MAX]);
        let time = often_small(&mut random, u32::MAX.into()) as u32;
        let call = random.choose(&all_calls(time));
        let turns = random.choose(&[0, 0, 1, 5, 40]);

        let mut lent = before.clone();
        let answer = lent.narrow(worker, call, turns);
        match first_refusal(&mut before.clone(), worker, call) {
            Some(number) => {
                assert_eq!(answer, refused(number), "{call:?} of {worker}");
                assert_eq!(lent, before);
            }
            None if turns == 0 => {
                assert!(answer.map_or_else(|refusal| refusal.number() > 4, |_| true));
                passed += 1;
            }
            None => passed += 1,
        }

        let mut bare = without_spare(&before);
        assert_eq!(bare.narrow(worker, call, turns), answer);
        assert_eq!(bare, without_spare(&lent));
    }
    assert!(passed > 10_000, "{passed}");
}
