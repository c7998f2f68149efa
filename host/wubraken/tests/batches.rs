//! Batches of turn files, in pieces of any length and into room of any size,
//! against the second program.

mod common;

use std::collections::BTreeSet;

use common::both::Both;
use common::draw::{any_arrival, any_memory};
use common::seeds::on_seeds;
use common::translate;
use schedule::by_hand::WORKED_EXAMPLE;
use schedule::lent::small_shape;
use schedule::script::{put_arrival, take, turn};
use schedule::{write, write_damaged, Options, Random};
use second::{Program, Record, Records, LENT_RECORDS, LENT_WORDS};
use wubraken::{Refusal, Shape, Stop, Worker, LINE};

fn any_room(random: &mut Random) -> usize {
    let room = match random.below(8) {
        0 => random.below(LINE as u32),
        1 => LINE as u32 - 1 + random.below(3),
        2..=4 => random.between(LINE as u32, 400),
        5 | 6 => random.between(LINE as u32, 4_000),
        _ => 16_384,
    };
    room as usize
}

/// Hands a turn file in piece by piece, as a program reads it. The lines, with
/// that of the refusal that ends the run.
fn run_in_pieces(random: &mut Random, lent: &mut Both, shape: &mut Shape, file: &[u8]) -> Vec<u8> {
    let mut output = Vec::new();
    let (mut at, mut have) = (0, 0);
    let bits = random.between(2, 14);
    loop {
        let (end, lines) = lent.run_batch(shape, &file[at..have], any_room(random));
        at += end.read;
        output.extend(lines);
        let is_all = have == file.len();
        match end.stop {
            Stop::Full => {}
            Stop::Drained if is_all => return output,
            Stop::Halted(refusal) if is_all || refusal != Refusal::CutRecord => {
                output.extend(format!("no {}\n", refusal.number()).bytes());
                return output;
            }
            _ => have = file.len().min(have + random.length(bits) as usize),
        }
    }
}

/// Zeros, as `turns` lends before an opening.
fn fresh(words: usize, records: usize) -> Both {
    Both::new(&vec![0; words], &vec![Worker::default(); records])
}

fn any_file(random: &mut Random, records: u64) -> Vec<u8> {
    let mut file = Vec::new();
    let (seed, options) = (random.draw(), Options::default());
    match random.one_in(2) {
        true => write(seed, records, options, &mut file),
        false => write_damaged(seed, records, options, &mut file),
    }
    .expect("a vector takes all");
    file
}

/// The program of the second program, at the end of a turn file.
fn program_after(file: &[u8]) -> Program {
    let mut program = Program::new();
    for record in Records::new(file).flatten() {
        // What it answers stands in its lines.
        let _ = program.apply(record);
    }
    program
}

/// A take of worker 0 in a pool of 1, 4, 2 and 10, then more bytes.
fn opened_and_then(more: &[u8]) -> Vec<u8> {
    [b"OP\x01\x04\x00\x02\x00\x0A\x00TA\x00", more].concat()
}

#[test]
fn every_mark() {
    let mut known = Vec::new();
    for mark in 0..=u16::MAX {
        let file = opened_and_then(&mark.to_le_bytes());
        let (end, _) = fresh(37, 1).run_batch(&mut Shape::default(), &file, 200);
        match end.stop {
            Stop::Halted(Refusal::CutRecord) => known.push(mark.to_le_bytes()),
            stop => assert_eq!(stop, Stop::Halted(Refusal::UnknownMark)),
        }
    }
    known.sort_unstable();
    assert_eq!(known, [*b"OP", *b"PU", *b"TA", *b"TU"]);
}

#[test]
fn cut_at_every_byte_into_every_room() {
    let (file, lines) = WORKED_EXAMPLE;
    for have in 0..=file.len() {
        for room in 0..=lines.len() + LINE {
            let (end, _) = fresh(37, 1).run_batch(&mut Shape::default(), &file[..have], room);
            assert_eq!((end.read, end.stop) == (0, Stop::Full), room < LINE);
        }
    }
    let mut lent = fresh(37, 1);
    let (end, written) = lent.run_batch(&mut Shape::default(), file, lines.len() + LINE);
    assert_eq!((end.stop, &written[..]), (Stop::Drained, lines.as_bytes()));
}

#[test]
fn random_schedules_in_pieces() {
    on_seeds("schedules", |random| {
        for nth in 0..40 {
            let file = any_file(random, 50 + nth * nth);
            let mut lent = fresh(LENT_WORDS, LENT_RECORDS);
            let mut shape = Shape::default();
            let output = run_in_pieces(random, &mut lent, &mut shape, &file);

            let expected = schedule::lines(&file[..]);
            assert!(output == expected.as_bytes(), "the lines differ");
            let program = program_after(&file);
            assert_eq!(shape, translate::shape_back(program.shape()));
            assert_eq!(lent.store(), program.store());
            assert_eq!(translate::table(lent.table()), program.workers());
        }
    });
}

/// Openings may then be refused by 2, or find more than they need.
#[test]
fn other_lengths_of_memory() {
    on_seeds("other lengths", |random| {
        for _ in 0..80 {
            let file = any_file(random, 400);
            let words = random.choose(&[0, 1, 36, 100, 1_000, LENT_WORDS - 1, 10_000]);
            let records = random.choose(&[0, 1, 2, 5, 63, 65, 100]);
            let mut lent = fresh(words, records);
            run_in_pieces(random, &mut lent, &mut Shape::default(), &file);
        }
    });
}

/// Records for a pool of some shape: mostly turns, few openings.
fn any_records(random: &mut Random, shape: Shape, records: usize) -> Vec<u8> {
    let mut file = Vec::new();
    for _ in 0..records {
        let worker = match random.below(16) {
            0 => random.below(256) as u8,
            _ => random.below(shape.workers.clamp(1, Shape::MAX_WORKERS) as u32) as u8,
        };
        let record = match random.below(100) {
            0 => Record::Open(small_shape(random)),
            1 => Record::Open(second::Shape {
                workers: random.below(256),
                nodes: random.below(5_000),
                buckets: random.below(300),
                width: random.below(65_536),
            }),
            2..=17 => put_arrival(worker, translate::arrival(any_arrival(random, shape))),
            18..=35 => take(worker),
            _ => turn(worker),
        };
        record.encode(&mut file);
    }
    file
}

/// A shape of few words, now and then with a field outside its limits.
fn any_shape(random: &mut Random, small: second::Shape) -> Shape {
    let shape = translate::shape_back(small);
    match random.below(16) {
        0 => Shape::default(),
        1 => Shape {
            workers: shape.workers | 1 << 32,
            ..shape
        },
        2 => Shape {
            width: random.choose(&[0, Shape::MAX_WIDTH + 1, u64::MAX]),
            ..shape
        },
        _ => shape,
    }
}

#[test]
fn any_memory_at_all() {
    on_seeds("any memory", |random| {
        let mut seen = BTreeSet::new();
        let mut left_the_ranges = 0;
        for _ in 0..1_500 {
            let small = small_shape(random);
            let mut shape = any_shape(random, small);
            let memory = any_memory(random, small);
            let mut lent = Both::new(&memory.store, &memory.table);
            let file = any_records(random, translate::shape_back(small), 60);
            let is_sound = memory.is_sound && shape == translate::shape_back(small);
            let output = run_in_pieces(random, &mut lent, &mut shape, &file);

            let output = String::from_utf8(output).unwrap();
            left_the_ranges += u32::from(is_sound && output.contains("no 3\n"));
            seen.extend(output.lines().map(|line| match line.split_once(' ') {
                Some(("no", number)) => format!("no {number}"),
                Some((name, _)) => name.to_string(),
                None => line.to_string(),
            }));
        }
        // By stage 3, in the midst of a batch.
        assert!(left_the_ranges > 0);
        let expected = "begun, empty, no 1, no 10, no 11, no 12, no 2, no 3, no 4, no 5, no 9, on, open, stored, took";
        let seen: Vec<String> = seen.into_iter().collect();
        assert_eq!(seen.join(", "), expected);
    });
}
