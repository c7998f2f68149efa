//! Seeded random schedules: what the rules say of every history, and that the
//! schedules are worth running.

mod observer;

use std::collections::{BTreeMap, BTreeSet};
use std::process::Command;

use observer::{Before, Observer};
use schedule::decided::Decided;
use schedule::lent::Memory;
use schedule::script::shape;
use schedule::{Generator, Options};
use second::layout::{field, node_at, NODE_WORDS};
use second::{Answer, Program, Record, Records, Response, Shape, LENT_RECORDS, LENT_WORDS};

/// Runs a schedule under the eyes of an observer, draining before each opening
/// and at the end.
fn observe(seed: u64, records: usize, options: Options) {
    let mut generator = Generator::new(seed, options);
    let mut observer = Observer::default();
    for _ in 0..records {
        let record = generator.propose();
        let opened = generator.program().is_open();
        let is_opening = matches!(record, Record::Open(_));
        let earlier = (opened && is_opening).then(|| generator.program().clone());
        let before = Before::new(generator.program());
        let answer = generator.apply(record);
        match (answer, earlier) {
            (Ok(Response::Open), Some(program)) => {
                std::mem::take(&mut observer).drain(program);
            }
            (Ok(Response::Open), None) => {}
            (_, Some(program)) => {
                assert_eq!(program.store(), generator.program().store());
                assert_eq!(program.workers(), generator.program().workers());
            }
            _ if opened => observer.watch(&before, generator.program(), record, answer),
            _ => assert_eq!(answer.unwrap_err().number(), 1),
        }
    }
    observer.drain(generator.program().clone());
}

#[test]
fn schedules_of_every_shape() {
    for seed in 0..40 {
        observe(seed, 4_000, Options::default());
    }
}

/// Few nodes and one bucket or two: everything is reused and contended.
#[test]
fn schedules_in_a_narrow_place() {
    for (seed, shape) in [
        (100, shape(2, 1, 1, 1)),
        (101, shape(2, 2, 1, 2)),
        (102, shape(3, 2, 2, 1)),
        (103, shape(3, 3, 1, 4)),
        (104, shape(4, 4, 2, 2)),
        (105, shape(3, 6, 3, 2)),
        (106, shape(5, 8, 2, 10)),
        (107, shape(4, 20, 4, 3)),
    ] {
        let options = Options {
            one_opening: true,
            shape: Some(shape),
            ..Options::default()
        };
        observe(seed, 12_000, options);
    }
}

/// The program, which trusts its own memory, and the checked entry points give
/// the same answers and the same memory.
#[test]
fn the_checked_entry_points_agree() {
    for seed in 200..220 {
        let mut generator = Generator::new(seed, Options::default());
        let mut memory = Memory::zeros(LENT_WORDS, LENT_RECORDS);
        for index in 0..5_000 {
            let (record, answer) = generator.next_record();
            assert_eq!(memory.apply(record), answer);
            if index % 50 == 0 || answer.is_err() {
                assert_eq!(memory.store, generator.program().store());
                assert_eq!(memory.workers, generator.program().workers());
            }
        }
    }
}

/// How often each line occurs, by its first word or the refusal's number.
fn kinds_of_lines(input: &[u8]) -> BTreeMap<String, usize> {
    let mut kinds = BTreeMap::new();
    for line in schedule::lines(input).lines() {
        let mut words = line.split(' ');
        let mut kind = words.next().unwrap().to_string();
        if kind == "no" {
            kind = line.to_string();
        }
        *kinds.entry(kind).or_default() += 1;
    }
    kinds
}

#[test]
fn schedules_hold_every_answer() {
    let mut input = Vec::new();
    schedule::write(7, 30_000, Options::default(), &mut input).unwrap();
    let kinds = kinds_of_lines(&input);
    for kind in [
        "open", "begun", "on", "stored", "took", "empty", "no 1", "no 2", "no 4", "no 5", "no 9",
        "no 10", "no 12",
    ] {
        assert!(kinds.get(kind) >= Some(&5), "{kind}: {kinds:?}");
    }
    assert_eq!(kinds.len(), 13, "{kinds:?}");
    assert_eq!(kinds.values().sum::<usize>(), 30_000);
}

/// What a put's time is, by the shape; each is to occur.
fn kinds_of_time(shape: Shape, time: u32) -> impl Iterator<Item = &'static str> {
    let time = i64::from(time);
    let first = i64::from((shape.buckets - 1) * shape.width);
    let behind = i64::from(shape.buckets * shape.width);
    let is_near = |border: i64| (border - 1..=border + 1).contains(&time);
    let kinds = [
        ("before the last bucket", time < first),
        ("in the last bucket's width", first <= time && time < behind),
        ("in the tail", behind <= time),
        (
            "near the last bucket's borders, or behind",
            is_near(first) || behind - 1 <= time,
        ),
        ("a sample before the last bucket", time == first - 1),
        ("the last bucket's first", time == first),
        ("the last bucket's second", time == first + 1),
        ("a sample before the tail", time == behind - 1),
        ("the tail's first", time == behind),
        ("the tail's second", time == behind + 1),
        ("near 2^16", is_near(1 << 16)),
        ("near 2^24", is_near(1 << 24)),
        ("near 2^31", is_near(1 << 31)),
        ("near 2^32", is_near(1 << 32)),
    ];
    kinds.into_iter().filter(|kind| kind.1).map(|kind| kind.0)
}

/// Whether a node in use has this time.
fn is_in_use(program: &Program, time: u32) -> bool {
    let shape = program.shape();
    let first = node_at(shape.buckets as usize, 0);
    program.store()[first..shape.store_words()]
        .chunks_exact(NODE_WORDS)
        .any(|node| node[field::RECLAMATION] == 1 && node[field::TIME] == time.into())
}

/// Calls `see` with each put, the pool before it, and the answer.
fn each_put(mut see: impl FnMut(&Program, u32, Answer)) {
    for seed in 0..100 {
        let mut generator = Generator::new(seed, Options::default());
        for _ in 0..4_000 {
            let record = generator.propose();
            let before = match record {
                Record::EnqueueStart { .. } => Some(generator.program().clone()),
                _ => None,
            };
            let answer = generator.apply(record);
            if let (Record::EnqueueStart { arrival, .. }, Some(before)) = (record, before) {
                see(&before, arrival.time, answer);
            }
        }
    }
}

/// Of the puts that begin, most lie near the last bucket's borders or in the tail, and
/// a fifth at least in the tail, in the last bucket before it, and in the buckets before
/// that. Each kind of time occurs, and so do equal times in the tail and a fall from the
/// tail to the buckets before the last.
#[test]
fn times_of_every_kind_begin() {
    let mut counts: BTreeMap<&str, usize> = BTreeMap::new();
    let (mut puts, mut earlier) = (0, None);
    each_put(|before, time, answer| {
        if answer.is_err() {
            return;
        }
        puts += 1;
        let shape = before.shape();
        for kind in kinds_of_time(shape, time) {
            *counts.entry(kind).or_default() += 1;
        }
        let is_tail = |time| time >= shape.buckets * shape.width;
        if is_tail(time) && is_in_use(before, time) {
            *counts.entry("equal in the tail").or_default() += 1;
        }
        if earlier.map_or(false, is_tail) && time < (shape.buckets - 1) * shape.width {
            *counts.entry("fallen from the tail").or_default() += 1;
        }
        earlier = Some(time);
    });
    println!("{puts}: {counts:?}");
    assert_eq!(counts.len(), 16, "{counts:?}");
    assert!(counts.values().all(|&count| count > 100), "{counts:?}");
    for kind in [
        "before the last bucket",
        "in the last bucket's width",
        "in the tail",
    ] {
        assert!(5 * counts[kind] > puts, "{kind}: {counts:?}");
    }
    assert!(2 * counts["near the last bucket's borders, or behind"] > puts);
}

/// What refuses other puts refuses those of late times, too (1 before an opening).
#[test]
fn late_puts_are_refused_as_others() {
    let mut refused: BTreeMap<u8, usize> = BTreeMap::new();
    each_put(|before, time, answer| {
        let shape = before.shape();
        if let (true, Err(refusal)) = (time >= shape.buckets * shape.width, answer) {
            *refused.entry(refusal.number()).or_default() += 1;
        }
    });
    let numbers: Vec<u8> = refused.keys().copied().collect();
    assert_eq!(numbers, [1, 4, 5, 9, 12]);
    assert!(refused.values().all(|&count| count >= 10), "{refused:?}");
}

/// Of the takes, some are decided by a reflection order against the tickets, and some by
/// the ticket.
#[test]
fn ties_of_every_kind_are_taken() {
    let mut decided = Decided::default();
    for seed in 0..100 {
        let mut input = Vec::new();
        schedule::write(seed, 4_000, Options::default(), &mut input).unwrap();
        decided += Decided::of(&input);
    }
    println!("{decided:?}");
    let Decided {
        takes,
        by_order,
        by_ticket,
    } = decided;
    assert!(
        15 * by_order > takes && 15 * by_ticket > takes,
        "{decided:?}"
    );
}

/// Every outcome of every stage occurs, the failing swaps too.
#[test]
fn schedules_hold_every_change_of_stage() {
    let outcomes: [&[u64]; 14] = [
        &[],
        &[0, 2, 4],
        &[0, 2, 3, 4],
        &[0, 1, 2, 4],
        &[5],
        &[1, 6],
        &[0, 7],
        &[0, 6],
        &[9],
        &[10, 12, 13],
        &[8, 10, 11, 12, 13],
        &[1, 10],
        &[8, 9],
        &[0, 8],
    ];
    let mut expected = BTreeSet::new();
    for (stage, next) in (0..).zip(outcomes) {
        expected.extend(next.iter().map(|&next| (stage, next)));
    }
    let mut seen = BTreeSet::new();
    for seed in 0..20 {
        let mut generator = Generator::new(seed, Options::default());
        for _ in 0..20_000 {
            let record = generator.propose();
            let before = generator.program().workers().to_vec();
            let answer = generator.apply(record);
            if let (Record::Step { worker }, Ok(_)) = (record, answer) {
                let worker = usize::from(worker);
                let after = generator.program().workers()[worker];
                seen.insert((before[worker].stage, after.stage));
            }
        }
    }
    assert_eq!(seen, expected);
}

#[test]
fn damaged_schedules_end_in_every_way() {
    let mut ends: BTreeMap<String, usize> = BTreeMap::new();
    for seed in 0..60 {
        let mut input = Vec::new();
        schedule::write_damaged(seed, 300, Options::default(), &mut input).unwrap();
        let output = schedule::lines(&input[..]);
        let last = output.lines().last().unwrap();
        let end = if last.starts_with("no") {
            last
        } else {
            "other"
        };
        *ends.entry(end.to_string()).or_default() += 1;
    }
    for end in ["no 7", "no 8", "other"] {
        assert!(ends.contains_key(end), "{ends:?}");
    }
}

#[test]
fn without_refusals_there_are_none() {
    let options = Options {
        no_refusals: true,
        one_opening: true,
        ..Options::default()
    };
    for seed in 0..10 {
        let mut input = Vec::new();
        schedule::write(seed, 5_000, options, &mut input).unwrap();
        let kinds = kinds_of_lines(&input);
        assert!(
            kinds.keys().all(|kind| !kind.starts_with("no")),
            "{kinds:?}"
        );
        assert_eq!(kinds["open"], 1);
    }
}

#[test]
fn the_same_seed_gives_the_same_file() {
    let run = |arguments: &[&str]| {
        let program = env!("CARGO_BIN_EXE_schedule");
        let output = Command::new(program).args(arguments).output().unwrap();
        (output.status.code(), output.stdout)
    };
    let mut expected = Vec::new();
    schedule::write(9, 2_000, Options::default(), &mut expected).unwrap();
    assert_eq!(Records::new(&expected[..]).count(), 2_000);
    assert_eq!(run(&["9", "2000"]), (Some(0), expected.clone()));
    assert_ne!(run(&["10", "2000"]).1, expected);
    assert_eq!(
        run(&["9", "2000", "--damaged"]),
        run(&["9", "2000", "--damaged"])
    );
    let (code, open) = run(&["1", "1", "--no-refusals", "--shape", "64,543,1,65535"]);
    assert_eq!(
        (code, &open[..]),
        (Some(0), &b"OP\x40\x1F\x02\x01\x00\xFF\xFF"[..])
    );
    assert_eq!(run(&["--help"]).0, Some(0));
    for wrong in [
        &["1"][..],
        &["x", "1"],
        &["1", "1", "--what"],
        &["1", "1", "--shape", "1,544,1,1"],
    ] {
        assert_eq!(run(wrong), (Some(2), Vec::new()));
    }
}
