//! Echograms: nothing outside the lent slices is touched, not even read. They lie
//! against pages that end the process when touched.
#![cfg(target_os = "linux")]

mod common;

use std::collections::BTreeSet;

use common::both_rows::{by_number, series};
use common::fenced::Fenced;
use common::seeds::on_seeds;
use schedule::echograms::Case;
use schedule::Random;
use wubraken::raw::{wubraken_clear_row, wubraken_record, wubraken_record_series};
use wubraken::{Echogram, Refusal};

fn number(answer: Result<(), Refusal>) -> u64 {
    answer.map_or_else(Refusal::number, |()| 0)
}

/// Each piece of memory ends at a page border, or begins at one.
#[test]
fn no_call_leaves_its_slices() {
    on_seeds("echogram, fences", |random| {
        let mut pages = [(); 4].map(|()| Fenced::new());
        let mut seen = BTreeSet::new();
        for _ in 0..600 {
            one_round(random, &mut pages, &mut seen);
        }
        assert_eq!(seen, BTreeSet::from([0, 13, 14, 15]));
    });
}

/// Calls between fences, and the same by the second program.
fn one_round(random: &mut Random, pages: &mut [Fenced; 4], seen: &mut BTreeSet<u64>) {
    let Case {
        slot_length,
        row: mut expected,
        times,
        energies,
    } = Case::draw(random);
    let [row_pages, time_pages, energy_pages, answer_pages] = pages;
    let row = row_pages.lend(&expected, random.one_in(2));
    let mut echogram = Echogram::resume(row, slot_length);
    if random.one_in(8) {
        let cleared = second::clear_row(slot_length, &mut expected);
        assert_eq!(number(echogram.clear()), by_number(cleared));
        assert_eq!(echogram.slots(), expected);
    }
    for (&time, &energy) in times.iter().zip(&energies).take(4) {
        let recorded = second::record(slot_length, time, energy, &mut expected);
        assert_eq!(number(echogram.record(time, energy)), by_number(recorded));
        assert_eq!(echogram.slots(), expected);
        seen.insert(by_number(recorded));
    }

    let mut answers = vec![0; times.len()];
    let lent_times = time_pages.lend(&times, random.one_in(2));
    let lent_energies = energy_pages.lend(&energies, random.one_in(2));
    let lent_answers = answer_pages.lend(&answers, random.one_in(2));
    let answered = echogram.record_series(lent_times, lent_energies, lent_answers);
    let recorded =
        second::record_series(slot_length, &times, &energies, &mut answers, &mut expected);
    assert_eq!(number(answered), by_number(recorded));
    assert_eq!(lent_answers, answers);
    assert_eq!(echogram.slots(), expected);
    assert!(*lent_times == times && *lent_energies == energies);
}

/// The lengths count what is behind a fence.
#[test]
fn a_row_outside_its_limits_is_not_touched() {
    let mut pages = Fenced::new();
    let row = pages.lend::<u32>(&[], true).as_mut_ptr();
    let (fence, answers) = (row as *const u32, row.cast());
    for (slot_length, slots) in [
        (0, 3),
        (4_801, 3),
        (1 << 32 | 48, 3),
        (u64::MAX, 16_384),
        (48, 0),
        (48, 16_385),
        (48, 1 << 32 | 3),
        (48, usize::MAX / 4),
    ] {
        // SAFETY: what is refused is not touched.
        unsafe {
            assert_eq!(wubraken_clear_row(slot_length, row, slots), 13);
            assert_eq!(wubraken_record(slot_length, 5, 1, row, slots), 13);
            let answer =
                wubraken_record_series(slot_length, fence, 9, fence, 9, answers, 9, row, slots);
            assert_eq!(answer, 13);
        }
    }
}

/// Neither is anything of a series whose parts differ in length.
#[test]
fn a_series_of_several_lengths_is_not_touched() {
    let mut pages = Fenced::new();
    let row = pages.lend::<u32>(&[], true).as_mut_ptr();
    let (fence, answers) = (row as *const u32, row.cast());
    for (times, energies, room) in [(2, 2, 1), (2, 1, 2), (1, 2, 2), (0, 0, 1), (3, 2, 1)] {
        // SAFETY: what is refused is not touched.
        let answer = unsafe {
            wubraken_record_series(48, fence, times, fence, energies, answers, room, row, 3)
        };
        assert_eq!(answer, 2);
    }
}

/// An empty series reads no time, and writes no answer.
#[test]
fn an_empty_series_touches_the_row_alone() {
    let [mut pages, mut nothing] = [(); 2].map(|()| Fenced::new());
    let row = pages.lend(&[7, 8, 9], true);
    let none = nothing.lend::<u32>(&[], true);
    let mut answers = Fenced::new();
    let answers = answers.lend::<u8>(&[], true);
    assert_eq!(series(48, none, none, answers, row), 0);
    assert_eq!(row, [7, 8, 9]);
}
