//! The decay of rows by hand: levels and crossings at their borders, the order of
//! refusals, and what the wrapper itself promises.

use std::cell::Cell;
use std::cmp::Ordering;

use wubraken::{Echogram, Refusal};

const MAX: u32 = u32::MAX;
const MAX_SLOTS: usize = Echogram::MAX_SLOTS;
/// What stands in a place before there is a level.
const UNTOUCHED: u16 = 777;

fn of<R>(row: R) -> Echogram<R> {
    Echogram::resume(row, 48)
}

/// The levels of all slots, by the curve and one by one, which are the same.
fn levels(row: &[u32]) -> Vec<Option<u16>> {
    let echogram = of(row);
    let mut stored = vec![UNTOUCHED; row.len()];
    assert_eq!(echogram.decay_curve(&mut stored), Ok(()));
    let levels: Vec<_> = stored.into_iter().map(Echogram::level_from).collect();
    for (slot, &level) in (0..).zip(&levels) {
        assert_eq!(echogram.level(slot), Ok(level), "{row:?}: {slot}");
    }
    levels
}

/// The level of slot 1, where R(1) is `rest` and R(0) is `sum`.
fn level_of_rest(rest: u32, sum: u32) -> Option<u16> {
    let levels = levels(&[sum - rest, rest]);
    assert_eq!(levels[0], Some(0));
    levels[1]
}

/// r^100 is 10^100 at r = 10, 10^200 at 100 and 10^300 at 1,000, and 1,024^100 is above
/// 10^301. With a sum of 1,024 r is R(k).
#[test]
fn levels_at_powers_of_ten() {
    for (r, level) in [
        (0, None),
        (1, Some(301)),
        (2, Some(271)),
        (3, Some(254)),
        (9, Some(206)),
        (10, Some(201)),
        (11, Some(197)),
        (99, Some(102)),
        (100, Some(101)),
        (101, Some(101)),
        (102, Some(101)),
        (103, Some(100)),
        (999, Some(2)),
        (1_000, Some(1)),
        (1_001, Some(1)),
        (1_023, Some(1)),
        (1_024, Some(0)),
    ] {
        assert_eq!(level_of_rest(r, 1_024), level, "{r}");
    }
}

/// With a sum of 2^32 − 1, r begins at R(k) = r × 2^22, and at one less it is r − 1.
#[test]
fn shares_are_rounded_down() {
    for (rest, sum, level) in [
        (4_194_304, MAX, Some(301)),
        (4_194_303, MAX, None),
        (41_943_040, MAX, Some(201)),
        (41_943_039, MAX, Some(206)),
        (419_430_400, MAX, Some(101)),
        (419_430_399, MAX, Some(102)),
        (4_194_304_000, MAX, Some(1)),
        (4_194_303_999, MAX, Some(2)),
        (MAX - 1, MAX, Some(1)),
        (MAX, MAX, Some(0)),
        (1, MAX, None),
        // r is 341 and 146, 1 and 0, 1,023 and 0.
        (1, 3, Some(48)),
        (1, 7, Some(85)),
        (1, 1_024, Some(301)),
        (1, 1_025, None),
        (1_024, 1_025, Some(1)),
        (0, 1, None),
    ] {
        assert_eq!(level_of_rest(rest, sum), level, "{rest} of {sum}");
    }
}

/// A whole number in base 2^32, its lowest digit first and its last not 0.
fn times(number: &[u32], factor: u32) -> Vec<u32> {
    let mut carry = 0;
    let mut product: Vec<u32> = Vec::new();
    for &digit in number {
        carry += u64::from(digit) * u64::from(factor);
        product.push(carry as u32);
        carry >>= 32;
    }
    product.extend((carry > 0).then_some(carry as u32));
    product
}

fn compare(left: &[u32], right: &[u32]) -> Ordering {
    let highest_first = left.iter().rev().cmp(right.iter().rev());
    left.len().cmp(&right.len()).then(highest_first)
}

/// L(r) is the greatest v with 10^v ≤ r^100: 10^(v + 1) is above. L(1,024) is 301.
#[test]
fn the_whole_table_by_its_rule() {
    let mut powers_of_ten = vec![vec![1]];
    for v in 0..302 {
        powers_of_ten.push(times(&powers_of_ten[v], 10));
    }
    for r in 1..=1_024 {
        let power = (0..100).fold(vec![1], |power, _| times(&power, r));
        let v = 301 - usize::from(level_of_rest(r, 1_024).unwrap());
        assert!(compare(&powers_of_ten[v], &power).is_le(), "{r}");
        assert!(compare(&powers_of_ten[v + 1], &power).is_gt(), "{r}");
    }
}

/// One slot of 1 and zeros on both sides: R(k) is whole up to it, and then nothing.
#[test]
fn levels_around_zeros() {
    assert_eq!(levels(&[0, 0, 1, 0]), [Some(0), Some(0), Some(0), None]);
    let mut row = vec![0; MAX_SLOTS];
    row[MAX_SLOTS - 1] = MAX;
    assert_eq!(levels(&row), vec![Some(0); MAX_SLOTS]);
    row.reverse();
    let mut expected = vec![None; MAX_SLOTS];
    expected[0] = Some(0);
    assert_eq!(levels(&row), expected);
}

/// Slot numbers of which a part is that of a slot, too.
#[test]
fn past_the_end_there_is_no_level() {
    let row = [1_023, 1];
    assert_eq!(of(row).level(1), Ok(Some(301)));
    for slot in [2, 3, 16_384, 16_385, 1 << 31, 1 << 32, 1 << 32 | 1] {
        assert_eq!(of(row).level(slot), Ok(None), "{slot}");
        assert_eq!(of([MAX]).level(slot), Ok(None), "{slot}");
    }
    for slot in [1 << 16 | 1, 1 << 61 | 1, 1 << 62 | 1, 1 << 63, u64::MAX] {
        assert_eq!(of(row).level(slot), Ok(None), "{slot}");
    }
    assert_eq!(of([MAX]).level(1), Ok(None));
}

#[test]
fn early_decay_at_its_crossing() {
    for (row, crossing) in [
        // 10 × R(1) is R(0), above and below.
        (&[9, 1][..], 1),
        (&[8, 1], 2),
        (&[10, 1], 1),
        // R is 100, 10, 1, and 100, 11, 1.
        (&[90, 9, 1], 1),
        (&[89, 10, 1], 2),
        (&[91, 9, 0, 0], 1),
        (&[89, 11, 0, 0], 2),
        // Zeros in front count.
        (&[0, 0, 9, 1], 3),
        (&[0, 0, 9], 3),
        // Ten times the rest is 10 at the last of the slots, or behind them.
        (&[1; 9], 9),
        (&[1; 10], 9),
        (&[1; 11], 10),
        // Past the last nothing is left.
        (&[1], 1),
        (&[MAX], 1),
        // Ten times the rest is 2^32 − 6, then 2^32 + 4, and 10 × 2^31.
        (&[MAX - 429_496_729, 429_496_729], 1),
        (&[MAX - 429_496_730, 429_496_730], 2),
        (&[(1 << 31) - 1, 1 << 31], 2),
    ] {
        assert_eq!(of(row).early_decay(), Ok(6 * crossing), "{row:?}");
    }
}

/// With a sum of 1,000, 10 × R² is at most 1,000² up to R = 316, and 100,000 × R² up to
/// R = 3. With a sum of 2^32 − 1 that is 1,358,187,912 and 13,581,879: the square of the
/// sum is 18,446,744,065,119,617,025, and 10 × R² is 18,446,744,043,029,197,440, at one
/// more 18,446,744,070,192,955,690; 100,000 × R² is 18,446,743,717,064,100,000, at one
/// more 18,446,746,433,440,000,000.
#[test]
fn t20_at_its_crossings() {
    for (sum, rests, between) in [
        (1_000, &[316, 3][..], 1),
        (1_000, &[317, 3], 0),
        (1_000, &[316, 4], 2),
        (1_000, &[317, 4], 1),
        (1_000, &[999, 317, 316, 316, 4, 4, 3, 3], 4),
        (1_000, &[3], 0),
        (1_000, &[], 0),
        (10, &[1], 1),
        (1, &[], 0),
        (MAX, &[1_358_187_912, 13_581_879], 1),
        (MAX, &[1_358_187_913, 13_581_879], 0),
        (MAX, &[1_358_187_912, 13_581_880], 2),
        (MAX, &[1_358_187_913, 13_581_880], 1),
        // 100,000 × 2^60 has no bit below the 64th.
        (MAX, &[1 << 30, 1], 1),
        (MAX, &[], 0),
    ] {
        let row = row_of(sum, rests);
        assert_eq!(of(&row[..]).t20(), Ok(3 * between), "{row:?}");
        // Zeros in front move both crossings.
        let later = [&[0; 5], &row[..]].concat();
        assert_eq!(of(later).t20(), Ok(3 * between), "{row:?}");
    }
}

/// The row with R(0) = `sum`, and then R(1), R(2) and so on.
fn row_of(sum: u32, rests: &[u32]) -> Vec<u32> {
    let starts = [sum].into_iter().chain(rests.iter().copied());
    let ends = rests.iter().copied().chain([0]);
    starts.zip(ends).map(|(start, end)| start - end).collect()
}

#[test]
fn the_longest_rows() {
    let mut row = vec![0; MAX_SLOTS];
    row[MAX_SLOTS - 1] = 1;
    // The crossings are past the last slot, all of them.
    assert_eq!(of(&row[..]).early_decay(), Ok(6 * 16_384));
    assert_eq!(of(&row[..]).t20(), Ok(0));
    // One part in ten is left to the end.
    row[0] = 9;
    assert_eq!(of(&row[..]).early_decay(), Ok(6));
    assert_eq!(of(&row[..]).t20(), Ok(3 * 16_383));
    assert_eq!(of(&row[..]).level(16_383), Ok(Some(101)));
    assert_eq!(of(&row[..]).level(16_384), Ok(None));
}

/// 16,384 × 262,144 is 2^32. One less is in the last slot: R(k) is 262,144 × (16,384 − k)
/// − 1, and ten times that is 4,293,918,710 at slot 14,746 and 4,296,540,150 before.
#[test]
fn the_largest_sum_in_the_longest_row() {
    let mut row = vec![262_144; MAX_SLOTS];
    assert_eq!(of(&row[..]).early_decay(), Err(Refusal::SumTooLarge));
    row[MAX_SLOTS - 1] -= 1;
    assert_eq!(of(&row[..]).early_decay(), Ok(6 * 14_746));
    // 1,024 × R(k) / R(0) is just below 1,023 at slot 16, and below 1 at slot 16,368.
    let levels = levels(&row);
    assert_eq!(levels[16], Some(1));
    assert_eq!(levels[16_367..16_369], [Some(301), None]);
}

/// What each function answers to a row that is refused whatever the buffer is.
fn check_refused(row: &[u32], refusal: Refusal) {
    let (echogram, slots) = (of(row), row.len());
    assert_eq!(echogram.early_decay(), Err(refusal));
    assert_eq!(echogram.t20(), Err(refusal));
    for slot in [0, 1, slots as u64, u64::MAX] {
        assert_eq!(echogram.level(slot), Err(refusal));
    }
    for places in [0, slots.saturating_sub(1), slots, slots + 1] {
        let mut levels = vec![UNTOUCHED; places];
        assert_eq!(echogram.decay_curve(&mut levels), Err(refusal));
        assert_eq!(levels, vec![UNTOUCHED; places]);
    }
}

/// 13 comes before 15 and 17, and these come before 19. In 32 bits a sum of 2^32 is 0.
#[test]
fn rows_that_are_refused() {
    for slots in [0, MAX_SLOTS + 1, 2 * MAX_SLOTS, 65_537] {
        for slot in [0, 1, MAX] {
            check_refused(&vec![slot; slots], Refusal::BadRow);
        }
    }
    for row in [&[MAX, 1][..], &[1, MAX], &[1 << 31; 2], &[1 << 30; 4]] {
        check_refused(row, Refusal::SumTooLarge);
    }
    check_refused(&[MAX, 2], Refusal::SumTooLarge);
    check_refused(&[MAX, 0, 0, 1], Refusal::SumTooLarge);
    check_refused(&[MAX; MAX_SLOTS], Refusal::SumTooLarge);
    for slots in [1, 2, 3, MAX_SLOTS] {
        check_refused(&vec![0; slots], Refusal::SilentRow);
    }
}

/// A sum of 2^32 − 1 is not too large; and one slot that is not zero, wherever, is enough.
#[test]
fn rows_that_are_just_measured() {
    for (row, crossing) in [
        (&[MAX][..], 1),
        (&[MAX - 1, 1], 1),
        (&[1, MAX - 1], 2),
        (&[0, MAX, 0], 2),
    ] {
        assert_eq!(of(row).early_decay(), Ok(6 * crossing), "{row:?}");
        assert_eq!(of(row).t20(), Ok(0), "{row:?}");
        assert_eq!(levels(row)[0], Some(0), "{row:?}");
    }
    for at in [0, 1, 8_191, 16_382, 16_383] {
        let mut row = vec![0; MAX_SLOTS];
        row[at] = 1;
        assert_eq!(of(&row[..]).early_decay(), Ok(6 * (at as u64 + 1)));
    }
}

/// By 19 if there are fewer places than slots, and places beyond the slots stay.
#[test]
fn buffers_of_every_length() {
    let row = [1_014, 9, 0, 1];
    let curve = [0, 201, 301, 301];
    for places in 0..12 {
        let mut levels = vec![UNTOUCHED; places];
        let answered = of(row).decay_curve(&mut levels);
        if places < 4 {
            assert_eq!(answered, Err(Refusal::ShortBuffer));
            assert_eq!(levels, vec![UNTOUCHED; places]);
        } else {
            assert_eq!(answered, Ok(()));
            assert_eq!(levels[..4], curve);
            assert_eq!(levels[4..], vec![UNTOUCHED; places - 4]);
        }
    }
}

/// Nor does it have to be within its limits.
#[test]
fn the_slot_length_does_not_count() {
    for slot_length in [0, 1, 4_800, 4_801, u64::MAX] {
        let echogram = Echogram::resume([9, 1], slot_length);
        assert_eq!(echogram.early_decay(), Ok(6));
        assert_eq!(echogram.t20(), Ok(3));
        assert_eq!(echogram.level(1), Ok(Some(101)));
        assert_eq!(echogram.decay_curve(&mut [0; 2]), Ok(()));
    }
}

#[test]
fn marks_and_levels() {
    assert_eq!(Echogram::NO_LEVEL, 65_535);
    assert_eq!(Echogram::level_from(65_535), None);
    for level in [0, 1, 301, 65_534] {
        assert_eq!(Echogram::level_from(level), Some(level));
    }
    let mut levels = [UNTOUCHED; 2];
    assert_eq!(of([5, 0]).decay_curve(&mut levels), Ok(()));
    assert_eq!(levels, [0, 65_535]);
}

/// Reading needs no more than `AsRef`.
#[test]
fn rows_owned_boxed_or_borrowed() {
    fn crossing<R: AsRef<[u32]>>(row: R) -> Result<u64, Refusal> {
        of(row).early_decay()
    }
    static ROW: [u32; 3] = [0, 9, 1];
    assert_eq!(crossing([0, 9, 1]), Ok(12));
    assert_eq!(crossing(vec![0, 9, 1]), Ok(12));
    assert_eq!(crossing(vec![0, 9, 1].into_boxed_slice()), Ok(12));
    assert_eq!(crossing(&ROW[..]), Ok(12));
    assert_eq!(crossing(&ROW[1..]), Ok(6));
    let mut recorded = Echogram::new(3, 48).unwrap();
    assert_eq!(recorded.record(50, 9), Ok(()));
    assert_eq!(recorded.record(143, 1), Ok(()));
    assert_eq!(recorded.early_decay(), Ok(12));
    assert_eq!(recorded.slots(), ROW);
}

/// Lends its parts in turn.
struct Fickle {
    row: Vec<u32>,
    asked: Cell<usize>,
}

impl AsRef<[u32]> for Fickle {
    fn as_ref(&self) -> &[u32] {
        self.asked.set(self.asked.get() + 1);
        let length = self.asked.get() % (self.row.len() + 1);
        &self.row[..length]
    }
}

/// Each call asks once, speaks of the slice it got, and stays inside it.
#[test]
fn a_row_of_another_length_at_every_call() {
    let echogram = of(Fickle {
        row: vec![9, 1, 0],
        asked: Cell::new(0),
    });
    // 1, 2, 3 and 0 slots.
    for _ in 0..2 {
        assert_eq!(echogram.level(1), Ok(None));
        assert_eq!(echogram.level(1), Ok(Some(101)));
        assert_eq!(echogram.early_decay(), Ok(6));
        assert_eq!(echogram.t20(), Err(Refusal::BadRow));
    }
    let mut levels = [UNTOUCHED; 2];
    assert_eq!(echogram.decay_curve(&mut levels), Ok(()));
    assert_eq!(levels, [0, UNTOUCHED]);
    assert_eq!(echogram.decay_curve(&mut levels), Ok(()));
    assert_eq!(levels, [0, 101]);
    let short = echogram.decay_curve(&mut levels);
    assert_eq!(short, Err(Refusal::ShortBuffer));
    let empty = echogram.decay_curve(&mut levels);
    assert_eq!(empty, Err(Refusal::BadRow));
    assert_eq!(levels, [0, 101]);
    assert_eq!(echogram.into_row().asked.get(), 12);
}
