//! The decay of rows: nothing outside the lent slices is touched, not even read, and the
//! row is not written. The slices lie against pages that end the process when touched.
#![cfg(target_os = "linux")]

mod common;

use std::collections::BTreeSet;

use common::both_decays::{curve, UNTOUCHED};
use common::both_rows::by_number;
use common::fenced::Fenced;
use common::seeds::on_seeds;
use schedule::rows::Case;
use schedule::Random;
use wubraken::raw::{
    wubraken_decay_curve, wubraken_early_decay, wubraken_level, wubraken_t20, Measured,
};
use wubraken::{Echogram, Refusal};

fn number<T>(answer: Result<T, Refusal>) -> Result<T, u64> {
    answer.map_err(Refusal::number)
}

fn expected<T>(answer: Result<T, second::Refusal>) -> Result<T, u64> {
    answer.map_err(|refusal| refusal.number().into())
}

/// Row and buffer end at a page border, or begin at one. The pages of the row can only
/// be read.
#[test]
fn no_call_leaves_its_slices() {
    on_seeds("decay, fences", |random| {
        let [mut row_pages, mut level_pages] = [(); 2].map(|()| Fenced::new());
        let mut seen = BTreeSet::new();
        for _ in 0..600 {
            let mut case = Case::draw(random);
            // There is no room for longer ones.
            case.row.truncate(Echogram::MAX_SLOTS + 1);
            let row = row_pages.lend_to_read(&case.row, random.one_in(2));
            seen.insert(one_round(random, row, &mut level_pages));
        }
        assert_eq!(seen, BTreeSet::from([0, 13, 15, 17, 19]));
    });
}

/// Calls between fences, and the same by the second program; what the curve answered.
fn one_round(random: &mut Random, row: &[u32], pages: &mut Fenced) -> u64 {
    let echogram = Echogram::resume(row, 48);
    let early_decay = expected(second::early_decay(row));
    assert_eq!(number(echogram.early_decay()), early_decay);
    assert_eq!(number(echogram.t20()), expected(second::t20(row)));
    let slots = row.len() as u32;
    let within = random.below(slots + 1).into();
    for slot in [0, within, slots.into(), 1 << 32 | within, u64::MAX] {
        let level = expected(second::level(row, slot));
        assert_eq!(number(echogram.level(slot)), level);
    }

    let places = match random.below(4) {
        0 => random.below(slots + 1),
        1 => slots + random.below(3),
        _ => slots,
    };
    let mut levels = vec![UNTOUCHED; places as usize];
    let lent = pages.lend(&levels, random.one_in(2));
    let answer = curve(row, lent);
    let drawn = second::decay_curve(row, &mut levels);
    assert_eq!(answer, by_number(drawn));
    assert!(lent == levels, "the curves differ");
    answer
}

/// The length counts what is behind a fence.
#[test]
fn a_row_outside_its_limits_is_not_touched() {
    let mut pages = Fenced::new();
    let fence = pages.lend::<u32>(&[], true).as_mut_ptr();
    let (row, levels) = (fence as *const u32, fence.cast());
    let refused = Measured {
        number: 13,
        value: 0,
    };
    for slots in [0, 16_385, 1 << 16 | 3, 1 << 32 | 3, usize::MAX / 4] {
        // SAFETY: what is refused is not touched.
        unsafe {
            assert_eq!(wubraken_early_decay(row, slots), refused);
            assert_eq!(wubraken_t20(row, slots), refused);
            assert_eq!(wubraken_level(0, row, slots), refused);
            for places in [0, 3, slots] {
                assert_eq!(wubraken_decay_curve(row, slots, levels, places), 13);
            }
        }
    }
}

/// Whether by the row or by the number of places.
#[test]
fn no_place_is_touched_by_what_is_refused() {
    let [mut row_pages, mut level_pages] = [(); 2].map(|()| Fenced::new());
    let levels: *mut u16 = level_pages.lend(&[], true).as_mut_ptr();
    for (row, places, refusal) in [
        (&[9, 0, 1][..], 2, 19),
        (&[9, 0, 1], 1, 19),
        (&[9, 0, 1], 0, 19),
        (&[0, 0, 0], 9, 17),
        (&[0, 0, 0], 2, 17),
        (&[u32::MAX, 0, 1], 9, 15),
        (&[u32::MAX, 0, 1], 2, 15),
    ] {
        let row = row_pages.lend_to_read(row, true);
        // SAFETY: what is refused is not touched.
        let answer = unsafe { wubraken_decay_curve(row.as_ptr(), row.len(), levels, places) };
        assert_eq!(answer, refusal, "{row:?}, {places} places");
    }
}

/// Those beyond the slots may lie where nobody can write.
#[test]
fn no_place_beyond_the_slots_is_touched() {
    let [mut row_pages, mut level_pages] = [(); 2].map(|()| Fenced::new());
    for slots in [1, 2, 3, 17, 16_384] {
        let row = row_pages.lend_to_read(&vec![7; slots], true);
        let levels = level_pages.lend(&vec![UNTOUCHED; slots], true);
        for more in [1, 2, 100, usize::MAX / 8] {
            let (levels, places) = (levels.as_mut_ptr(), slots + more);
            // SAFETY: only as many places as slots are touched.
            let answer = unsafe { wubraken_decay_curve(row.as_ptr(), slots, levels, places) };
            assert_eq!(answer, 0);
        }
        let mut expected = vec![UNTOUCHED; slots];
        assert_eq!(second::decay_curve(row, &mut expected), Ok(()));
        assert_eq!(levels, expected);
    }
}

/// The number of a slot past the end leads to nothing that is read.
#[test]
fn no_slot_past_the_end_is_read() {
    let mut pages = Fenced::new();
    for at_the_end in [true, false] {
        let row = pages.lend_to_read(&[9, 0, 1], at_the_end);
        let echogram = Echogram::resume(row, 48);
        for slot in [3, 4, 16_384, 1 << 32, 1 << 62, 1 << 63, u64::MAX] {
            assert_eq!(echogram.level(slot), Ok(None), "{slot}");
        }
        assert_eq!(echogram.level(2), Ok(Some(101)));
    }
}
