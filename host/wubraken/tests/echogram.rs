//! Echograms against the second program: any row, slot length, time and energy, one by
//! one and in series.

mod common;

use std::collections::BTreeSet;

use common::both_rows::{recordings_made, BothRows, UNANSWERED};
use common::seeds::on_seeds;
use schedule::echograms::Case;
use schedule::Random;
use wubraken::{Echogram, Refusal};

const CASES: usize = 400;
const SMALL_ROWS: usize = 2_000;
const LONG_SERIES: usize = 40;

/// One by one each answer is that of the series, and so is the row.
#[test]
fn any_recording_alone_and_in_a_series() {
    on_seeds("echogram, any case", |random| {
        let mut seen = BTreeSet::new();
        for _ in 0..CASES {
            let case = Case::draw(random);
            let mut rows = BothRows::new(case.slot_length, &case.row);
            if random.one_in(4) {
                seen.insert(rows.clear());
            }
            let mut in_series = rows.clone();
            let recordings = case.times.iter().zip(&case.energies);
            let numbers = recordings.map(|(&time, &energy)| rows.record(time, energy));
            let numbers: Vec<u64> = numbers.collect();

            let count = case.times.len();
            let (number, answers) = in_series.record_series(&case.times, &case.energies, count);
            assert_eq!(rows.slots(), in_series.slots());
            let expected = match number {
                0 => answers.into_iter().map(u64::from).collect(),
                _ => vec![number; count],
            };
            assert_eq!(numbers, expected);
            seen.extend(numbers);
        }
        assert_eq!(seen, BTreeSet::from([0, 13, 14, 15]));
    });
}

/// Few slots, often full: the row is cleared now and then.
#[test]
fn many_recordings_to_small_rows() {
    on_seeds("echogram, small rows", |random| {
        for _ in 0..SMALL_ROWS {
            let (slots, slot_length) = (random.between(1, 20), random.length(12));
            let mut rows = BothRows::new(slot_length.into(), &vec![u32::MAX; slots as usize]);
            assert_eq!(rows.clear(), 0);
            let bits = random.between(1, 32);
            for _ in 0..200 {
                let time = random.below(slots * slot_length + 1);
                let energy = (random.draw() as u32) >> (32 - bits);
                if rows.record(time, energy) == 15 && random.one_in(8) {
                    assert_eq!(rows.clear(), 0);
                }
            }
        }
    });
    let made = recordings_made();
    assert!(made >= 400_000, "{made} recordings");
}

/// A row of so many slots and recordings that mostly lie in it.
fn long_case(random: &mut Random, slots: u32) -> Case {
    let slot_length = random.between(1, 4_800);
    let span = slot_length * slots;
    let (mut times, mut energies) = (Vec::new(), Vec::new());
    // So that the sum passes the most in some of them, and not in others.
    let bits = random.between(14, 20);
    for _ in 0..50_000 {
        times.push(random.below(span + span / 64 + 1));
        energies.push(random.below(1 << bits));
    }
    Case {
        slot_length: slot_length.into(),
        row: vec![0; slots as usize],
        times,
        energies,
    }
}

/// What is recorded is in the row, and nothing else is.
#[test]
fn long_series_on_cleared_rows() {
    on_seeds("echogram, long series", |random| {
        let mut seen = BTreeSet::new();
        for _ in 0..LONG_SERIES {
            let slots = random.choose(&[1, 20, 1_000, Echogram::MAX_SLOTS as u32]);
            let case = long_case(random, slots);
            let mut rows = BothRows::new(case.slot_length, &case.row);
            let count = case.times.len();
            let (number, answers) = rows.record_series(&case.times, &case.energies, count);
            assert_eq!(number, 0);
            let recorded = case.energies.iter().zip(&answers);
            let recorded = recorded.filter(|(_, &answer)| answer == 0);
            let recorded: u64 = recorded.map(|(&energy, _)| u64::from(energy)).sum();
            assert_eq!(sum(rows.slots()), recorded);
            seen.extend(answers);
        }
        assert_eq!(seen, BTreeSet::from([0, 14, 15]));
    });
    let made = recordings_made();
    assert!(made >= 2_000_000, "{made} recordings");
}

fn sum(slots: &[u32]) -> u64 {
    slots.iter().map(|&slot| u64::from(slot)).sum()
}

/// By 2, whatever the row and the slot length are.
#[test]
fn series_of_several_lengths() {
    for (slot_length, row) in [(48, &[7; 3][..]), (48, &[]), (0, &[7]), (4_801, &[7; 3])] {
        let outside = if slot_length == 48 && !row.is_empty() {
            0
        } else {
            13
        };
        for lengths in 0..27 {
            let [times, energies, room] = [lengths / 9, lengths / 3 % 3, lengths % 3];
            let mut rows = BothRows::new(slot_length, row);
            let (number, answers) = rows.record_series(&vec![5; times], &vec![1; energies], room);
            let is_one_length = times == energies && energies == room;
            assert_eq!(number, if is_one_length { outside } else { 2 });
            if number > 0 {
                assert_eq!(rows.slots(), row);
                assert_eq!(answers, vec![UNANSWERED; room]);
            }
        }
    }
}

/// Times and energies are only read, and may be the same.
#[test]
fn times_that_are_the_energies() {
    on_seeds("echogram, one slice", |random| {
        for _ in 0..CASES {
            let case = Case::draw(random);
            let count = case.times.len();
            let mut rows = BothRows::new(case.slot_length, &case.row);
            let (number, expected) = rows.record_series(&case.times, &case.times, count);
            let mut answers = vec![UNANSWERED; count];
            let mut echogram = Echogram::resume(case.row, case.slot_length);
            let answered = echogram.record_series(&case.times, &case.times, &mut answers);
            assert_eq!(answered.map_or_else(Refusal::number, |()| 0), number);
            assert_eq!(answers, expected);
            assert_eq!(echogram.slots(), rows.slots());
        }
    });
}
