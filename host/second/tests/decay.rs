//! Early decay, T20 and levels: by hand, and random rows by what request Q-5 says.

mod common;

use std::cmp::Ordering;
use std::ops::Range;
use std::thread;

use common::refused;
use schedule::rows::{Case, Kind};
use schedule::Random;
use second::{decay_curve, early_decay, level, t20, Refusal, NO_LEVEL};

/// The largest slot and sum: 2^32 - 1.
const LAST: u32 = 4_294_967_295;
/// What no level is.
const UNTOUCHED: u16 = 0xAAAA;

/// By its number, if it is refused.
type Outcome<T = ()> = Result<T, u8>;

fn numbered<T>(outcome: Result<T, Refusal>) -> Outcome<T> {
    outcome.map_err(Refusal::number)
}

/// Early decay and T20 of a row that is not refused.
fn times(row: &[u32]) -> (u64, u64) {
    (early_decay(row).unwrap(), t20(row).unwrap())
}

/// The curve in a buffer of that many places; a refusal must leave them as they were.
fn curve_into(row: &[u32], places: usize) -> Outcome<Vec<u16>> {
    let mut levels = vec![UNTOUCHED; places];
    let outcome = decay_curve(row, &mut levels);
    if outcome.is_err() {
        assert_eq!(levels, vec![UNTOUCHED; places]);
    }
    numbered(outcome).map(|()| levels)
}

fn in_curve(level: Option<u16>) -> u16 {
    level.unwrap_or(NO_LEVEL)
}

/// Expects these levels, each by itself and all in the curve, and none behind them.
fn check_levels(row: &[u32], expected: &[Option<u16>]) {
    assert_eq!(row.len(), expected.len());
    for (k, &expected) in (0..).zip(expected) {
        assert_eq!(level(row, k), Ok(expected), "slot {k}");
    }
    let slots = row.len() as u64;
    assert_eq!(level(row, slots), Ok(None));
    let expected: Vec<_> = expected.iter().copied().map(in_curve).collect();
    assert_eq!(curve_into(row, row.len()), Ok(expected));
}

/// The level where `left` of 1,024 is still to come: the share is just that.
fn level_of_share(left: u32) -> Option<u16> {
    let row = [1_024 - left, left];
    let found = level(&row, 1).unwrap();
    check_levels(&row, &[Some(0), found]);
    found
}

// Early decay and T20 by hand: what is still to come at each slot stands behind the row.

#[test]
fn one_slot() {
    for slot in [1, 2, 9, 10, 1_024, LAST - 1, LAST] {
        // All and none: each crossing is behind the slot.
        assert_eq!(times(&[slot]), (6, 0));
        check_levels(&[slot], &[Some(0)]);
    }
}

#[test]
fn two_slots() {
    // 2, 1: none of the crossings before the end.
    assert_eq!(times(&[1, 1]), (12, 0));
    // 3, 1: 10 × 1 is above 3 × 3.
    assert_eq!(times(&[2, 1]), (12, 0));
    // 4, 1: it is at most 4 × 4, but above 4.
    assert_eq!(times(&[3, 1]), (12, 3));
    // 9, 1; 10, 1; 11, 1: the tenth from 10 on.
    assert_eq!(times(&[8, 1]), (12, 3));
    assert_eq!(times(&[9, 1]), (6, 3));
    assert_eq!(times(&[10, 1]), (6, 3));
    // 100,000 × 1 is above 316 × 316, which is 99,856, and at most 317 × 317.
    assert_eq!(times(&[315, 1]), (6, 3));
    assert_eq!(times(&[316, 1]), (6, 0));
}

#[test]
fn zeros_in_front_put_it_off() {
    // 5, 5, 5.
    assert_eq!(times(&[0, 0, 5]), (18, 0));
    check_levels(&[0, 0, 5], &[Some(0); 3]);
    // 10, 10, 10, 1: as 9, 1 is, two slots later.
    assert_eq!(times(&[0, 0, 9, 1]), (18, 3));
}

#[test]
fn zeros_at_the_end_do_not_count() {
    // 5, 0, 0.
    assert_eq!(times(&[5, 0, 0]), (6, 0));
    check_levels(&[5, 0, 0], &[Some(0), None, None]);
    // 10, 1, 0, 0.
    assert_eq!(times(&[9, 1, 0, 0]), (6, 3));
}

/// 10 - k parts of 10 are still to come at slot k.
#[test]
fn ten_equal_slots() {
    for slot in [1, 7, 1_000, 429_496_729] {
        let row = [slot; 10];
        // One part at 9. The square of 3 is at most 10 and that of 4 is not: 7. The square
        // of 1 is above a thousandth: 10.
        assert_eq!(times(&row), (6 * 9, 3 * (10 - 7)));
        // Shares 1024 921 819 716 614 512 409 307 204 102, with logarithms 3.0103 2.9642
        // 2.9132 2.8549 2.7881 2.7092 2.6117 2.4871 2.3096 2.0086.
        let levels = [0, 5, 10, 16, 23, 31, 40, 53, 71, 101];
        check_levels(&row, &levels.map(Some));
    }
}

/// 1000 - k parts of 1000. The squares of 316 and 317 are 99,856 and 100,489, those of 3
/// and 4 are 9 and 16.
#[test]
fn a_thousand_equal_slots() {
    let expected = (6 * 900, 3 * (997 - 684));
    assert_eq!(times(&[1; 1_000]), expected);
    assert_eq!(times(&[4_294_967; 1_000]), expected);
}

/// The square of 16,384 is 268,435,456: 5,181 is the root of a tenth, rounded down, as its
/// square is 26,842,761 and the next one 26,853,124; 51 that of its 100,000th, as the
/// squares are 2,601 and 2,704.
#[test]
fn the_longest_row() {
    let early = 16_384 - 1_638;
    let (start, end) = (16_384 - 5_181, 16_384 - 51);
    let expected = (6 * early, 3 * (end - start));
    assert_eq!(times(&[1; 16_384]), expected);
    assert_eq!(times(&[262_143; 16_384]), expected);
}

/// The square of 100 - k is still to come, if the slots are the odd numbers downwards.
#[test]
fn a_square_that_falls() {
    let row: Vec<u32> = (1..=100).rev().map(|place| 2 * place - 1).collect();
    // 31 × 31 is 961, 32 × 32 is 1,024: at most 1,000.
    let early = 100 - 31;
    // Fourth powers: of 56 and 57, 9,834,496 and 10,556,001: at most 10,000,000.
    let start = 100 - 56;
    // Of 5 and 6, 625 and 1,296: at most 1,000.
    let end = 100 - 5;
    assert_eq!(times(&row), (6 * early, 3 * (end - start)));
}

/// 2^(10 - k) until 1 is left, then none.
#[test]
fn half_of_it_each_slot() {
    let row = [512, 256, 128, 64, 32, 16, 8, 4, 2, 1, 1];
    // 2^4 is 16. 4^2 is 16, 4^8 is 65,536, 4^9 is more than 100,000.
    assert_eq!(times(&row), (6 * 4, 3 * (9 - 2)));
    // 2^(100 × n) has as many digits as 30.103 × n says, rounded up.
    let levels = [0, 31, 61, 91, 121, 151, 181, 211, 241, 271, 301];
    check_levels(&row, &levels.map(Some));
}

/// 10^(9 - k): 10 dB each slot. The tenth is hit with equality.
#[test]
fn a_tenth_of_it_each_slot() {
    let slots = [8, 7, 6, 5, 4, 3, 2, 1, 0].map(|exponent| 9 * 10_u32.pow(exponent));
    let row: Vec<u32> = slots.into_iter().chain([1]).collect();
    // 10^(2 × k) is above 10 from 1 on, and above 10^5 from 3 on.
    assert_eq!(times(&row), (6, 3 * (3 - 1)));
    // Shares 1024, 102, 10, 1, and 0 from there.
    let mut levels = vec![Some(0), Some(101), Some(201), Some(301)];
    levels.resize(10, None);
    check_levels(&row, &levels);
}

/// What is still to come falls by the tenth part: 10^8 × 0.9^k, a whole number up to k = 8.
#[test]
fn nine_tenths_of_it_each_slot() {
    let left = (0..=8).map(|k| 9_u32.pow(k) * 10_u32.pow(8 - k));
    let left: Vec<u32> = left.chain([0]).collect();
    let row: Vec<u32> = left.windows(2).map(|pair| pair[0] - pair[1]).collect();
    // 0.9^8 is 0.43: no tenth before the end. 0.9^(2 × k) has no tenth until k = 11.
    assert_eq!(times(&row), (6 * 9, 0));
    // Shares 1024 921 829 746 671 604 544 489 440: 0.9^k has 0.4576 × k decibels less.
    let levels = [0, 5, 10, 14, 19, 23, 28, 33, 37];
    check_levels(&row, &levels.map(Some));
}

// Equality.

/// 10 × R(k) = R(0): the slot counts. With one less in front, or one more behind, the next.
#[test]
fn a_tenth_exactly() {
    for part in [1, 2, 3, 1 << 20, 429_496_729] {
        assert_eq!(early_decay(&[9 * part, part]), Ok(6));
        assert_eq!(early_decay(&[9 * part + 1, part]), Ok(6));
        assert_eq!(early_decay(&[9 * part - 1, part]), Ok(12));
        assert_eq!(early_decay(&[9 * part - 1, part + 1]), Ok(12));
        // As soon as it is hit, and only once.
        assert_eq!(early_decay(&[0, 9 * part, 0, 0, part, 0]), Ok(12));
    }
}

/// Neither crossing of T20 is ever hit with equality: if 10 × R(k)² or 100,000 × R(k)² were
/// a square, and R(k) not 0, then 10 would be the square of a fraction. These miss it by 1:
/// whole² - 10 × part² is 1 or -1.
#[test]
fn nearly_5_decibels() {
    for (whole, part, is_down) in [
        (3, 1, false),
        (19, 6, true),
        (117, 37, false),
        (721, 228, true),
        (4_443, 1_405, false),
        (243_289_797, 76_934_989, false),
        (1_499_219_281, 474_094_764, true),
    ] {
        let difference = i128::from(whole) * i128::from(whole) - 10 * i128::from(part * part);
        assert_eq!(difference, if is_down { 1 } else { -1 });
        // 25 dB are at the end.
        let row = [whole - part, part].map(|slot: u64| slot as u32);
        let start = if is_down { 1 } else { 2 };
        assert_eq!(t20(&row), Ok(3 * (2 - start)), "{whole} {part}");
    }
}

/// The root of 10 is 3.16227766016...; 5 dB are at slot 1.
#[test]
fn nearly_25_decibels() {
    for (part, too_little) in [
        (1, 316),
        (10, 3_162),
        (100, 31_622),
        (1_000, 316_227),
        (10_000, 3_162_277),
        (100_000, 31_622_776),
        (1_000_000, 316_227_766),
        (10_000_000, 3_162_277_660),
    ] {
        assert_eq!(t20(&[too_little - part, part]), Ok(3), "{part}");
        assert_eq!(t20(&[too_little - part + 1, part]), Ok(0), "{part}");
    }
}

/// Squares of what is left, ten times or 100,000 times, do not come round at 2^64.
#[test]
fn large_energies() {
    // LAST, LAST, 10^9: 10 × 10^18 is at most 1.8 × 10^19, and 10^23 is not.
    let row = [0, LAST - 1_000_000_000, 1_000_000_000];
    assert_eq!(times(&row), (6 * 3, 3 * (3 - 2)));
    assert_eq!(times(&[0, LAST]), (12, 0));
    assert_eq!(times(&[LAST - 1, 1]), (6, 0));
    assert_eq!(times(&[1, LAST - 1]), (12, 0));
}

/// Early decay of all slots; T20 of all but one, from the first one's end to the last one's.
#[test]
fn the_largest_answers() {
    let mut row = [0; 16_384];
    row[16_383] = 1;
    assert_eq!(times(&row), (6 * 16_384, 0));
    row[0] = 9;
    assert_eq!(times(&row), (6, 3 * 16_383));
}

// Levels.

/// 1,024^100 is 2^1000 and has 302 digits. The others from (1 + x)^100: 1.001 gives 1.1;
/// 0.999 gives 0.9; 1.01 gives 2.7; 0.99 gives 0.37; 1.1 gives 1.4 × 10^4; 0.9 gives
/// 2.7 × 10^-5.
#[test]
fn shares_at_powers_of_ten() {
    for (share, log) in [
        (1_024, 301),
        (1_001, 300),
        (1_000, 300),
        (999, 299),
        (101, 200),
        (100, 200),
        (99, 199),
        (11, 104),
        (10, 100),
        (9, 95),
        (1, 0),
    ] {
        assert_eq!(level_of_share(share), Some(301 - log), "{share}");
    }
    assert_eq!(level_of_share(0), None);
}

/// 2^100 is 1,267,650,600,228,229,401,496,703,205,376; 3^100 begins with 5.15 × 10^47,
/// 5^100 with 7.88 × 10^69, 7^100 with 3.23 × 10^84.
#[test]
fn small_shares() {
    for (share, log) in [(2, 30), (3, 47), (4, 60), (5, 69), (7, 84)] {
        assert_eq!(level_of_share(share), Some(301 - log), "{share}");
    }
}

/// All of them, by another way.
#[test]
fn every_share() {
    let logs = Logs::new();
    for share in 0..=1_024 {
        let expected = (share > 0).then(|| 301 - logs.log(share as usize));
        assert_eq!(level_of_share(share), expected, "{share}");
    }
}

/// Of 2^32 - 1, share × 2^22 is just enough for the share, which is below 1,024.
#[test]
fn shares_are_rounded_down() {
    for share in [1, 2, 9, 10, 11, 99, 100, 101, 512, 999, 1_000, 1_001, 1_023] {
        for (left, share) in [(share << 22, share), ((share << 22) - 1, share - 1)] {
            let row = [LAST - left, left];
            check_levels(&row, &[Some(0), level_of_share(share)]);
        }
    }
    // All but one: 1,023 and a little more.
    check_levels(&[1, LAST - 1], &[Some(0), level_of_share(1_023)]);
    // Of 3: 341.33 and 682.67; logarithms 2.5327 and 2.8337.
    check_levels(&[1, 1, 1], &[Some(0), Some(18), Some(48)]);
    // A 1,025th is too little, a 1,024th is not.
    check_levels(&[1_024, 1], &[Some(0), None]);
    check_levels(&[1_023, 1], &[Some(0), Some(301)]);
}

#[test]
fn no_level_past_the_row() {
    for row in [&[LAST][..], &[1, 1], &[1; 16_384]] {
        let slots = row.len() as u64;
        for k in [slots, slots + 1, 16_384, 16_385, 65_536, 1 << 31] {
            assert_eq!(level(row, k), Ok(None), "{k}");
        }
        let (wide, widest) = (1 << 32, 1 << 63);
        for k in [wide - 1, wide, wide + 1, widest, widest + 1, u64::MAX] {
            assert_eq!(level(row, k), Ok(None), "{k}");
        }
    }
}

// Refusals.

/// Each function, the level at k, the curve in a buffer of that many places.
fn all(row: &[u32], k: u64, places: usize) -> [Outcome; 4] {
    [
        numbered(early_decay(row)).map(|_| ()),
        numbered(t20(row)).map(|_| ()),
        numbered(level(row, k)).map(|_| ()),
        curve_into(row, places).map(|_| ()),
    ]
}

/// The outcome is the same wherever the level is asked for, and with any buffer that is
/// long enough.
fn check_all(row: &[u32], outcome: Outcome) {
    for k in [0, 1, row.len() as u64, u64::MAX] {
        for places in [row.len(), row.len() + 1, row.len() + 100] {
            assert_eq!(all(row, k, places), [outcome; 4]);
        }
    }
}

#[test]
fn refusals_by_name_and_number() {
    for (refusal, number) in [
        (Refusal::EchogramOutsideLimits, 13),
        (Refusal::SumTooLarge, 15),
        (Refusal::SilentRow, 17),
        (Refusal::BufferTooShort, 19),
    ] {
        assert_eq!(refusal.number(), number);
        assert_eq!(refused(number), Err(refusal));
    }
}

#[test]
fn rows_at_their_limits() {
    for slots in [1, 2, 16_383, 16_384] {
        check_all(&vec![1; slots], Ok(()));
    }
    for slots in [0, 16_385, 16_386, 32_768, 65_537] {
        check_all(&vec![1; slots], Err(13));
    }
}

#[test]
fn sums_at_the_border() {
    let half = 1 << 31;
    for row in [&[LAST][..], &[LAST - 1, 1], &[half, half - 1], &[0, LAST]] {
        check_all(row, Ok(()));
    }
    for row in [&[LAST, 1][..], &[1, LAST], &[half, half], &[LAST, 0, 1]] {
        check_all(row, Err(15));
    }
    // 2^18 × 2^14 is 2^32.
    let mut row = [1 << 18; 16_384];
    check_all(&row, Err(15));
    for k in [0, 9_999, 16_383] {
        row[k] -= 1;
        check_all(&row, Ok(()));
        row[k] += 1;
    }
    check_all(&[LAST; 2], Err(15));
    check_all(&[LAST; 16_384], Err(15));
}

#[test]
fn silent_rows() {
    for slots in [1, 2, 100, 16_384] {
        let mut row = vec![0; slots];
        check_all(&row, Err(17));
        row[slots - 1] = 1;
        check_all(&row, Ok(()));
    }
}

#[test]
fn short_buffers() {
    for slots in [1, 2, 10, 16_384] {
        let row = vec![1; slots];
        assert_eq!(curve_into(&row, 0), Err(19));
        assert_eq!(curve_into(&row, slots / 2), Err(19));
        assert_eq!(curve_into(&row, slots - 1), Err(19));
        assert!(curve_into(&row, slots).is_ok());
    }
}

#[test]
fn the_lowest_number_is_the_answer() {
    // No slot: each of them is 0, and the buffer is never too short.
    check_all(&[], Err(13));
    assert_eq!(curve_into(&[], 0), Err(13));
    for slot in [0, 1, LAST] {
        let row = vec![slot; 16_385];
        check_all(&row, Err(13));
        assert_eq!(curve_into(&row, 0), Err(13));
        assert_eq!(curve_into(&row, 16_384), Err(13));
    }
    // A sum that is 0 in 32 bits is still too large.
    for row in [&[LAST, 1][..], &[1 << 31; 4], &[1 << 18; 16_384]] {
        check_all(row, Err(15));
        assert_eq!(curve_into(row, 0), Err(15));
        assert_eq!(curve_into(row, row.len() - 1), Err(15));
    }
    assert_eq!(curve_into(&[0, 0], 0), Err(17));
    assert_eq!(curve_into(&[0, 0], 1), Err(17));
    assert_eq!(curve_into(&[0, 1], 1), Err(19));
}

#[test]
fn places_beyond_the_slots_stay() {
    let mut levels = [7, 8, 9, 10, 11, 12];
    assert_eq!(decay_curve(&[9, 1, 0, 0], &mut levels), Ok(()));
    assert_eq!(levels, [0, 101, 65_535, 65_535, 11, 12]);
    assert_eq!(decay_curve(&[5], &mut levels), Ok(()));
    assert_eq!(levels, [0, 101, 65_535, 65_535, 11, 12]);
    assert_eq!(decay_curve(&[0, 5], &mut levels), Ok(()));
    assert_eq!(levels, [0, 0, 65_535, 65_535, 11, 12]);
}

#[test]
fn the_mark_is_no_level() {
    assert_eq!(NO_LEVEL, 65_535);
    // The largest level there is.
    assert_eq!(level_of_share(1), Some(301));
}

// Random rows.

/// Powers in base 2^32, the lowest digit first, as long as 10^302 and 1,024^100 need.
#[derive(Clone, PartialEq)]
struct Binary([u32; 32]);

impl Binary {
    fn one() -> Self {
        let mut digits = [0; 32];
        digits[0] = 1;
        Self(digits)
    }

    fn times(mut self, factor: u32) -> Self {
        let mut carry = 0;
        for digit in &mut self.0 {
            let product = u64::from(*digit) * u64::from(factor) + carry;
            *digit = product as u32;
            carry = product >> 32;
        }
        assert_eq!(carry, 0);
        self
    }

    fn is_at_most(&self, other: &Self) -> bool {
        self.0.iter().rev().cmp(other.0.iter().rev()) != Ordering::Greater
    }
}

/// L(r): the largest v with 10^v at most r^100, found by multiplying up.
struct Logs {
    /// 10^0 to 10^302.
    powers: Vec<Binary>,
    /// Those of 1 to 1,024.
    logs: Vec<u16>,
}

impl Logs {
    fn new() -> Self {
        let next = |power: &Binary| Some(power.clone().times(10));
        let powers = std::iter::successors(Some(Binary::one()), next);
        let mut logs = Self {
            powers: powers.take(303).collect(),
            logs: Vec::new(),
        };
        logs.logs = (1..=1_024).map(|share| logs.find(share)).collect();
        logs
    }

    fn find(&self, share: u32) -> u16 {
        let power = (0..100).fold(Binary::one(), |power, _| power.times(share));
        let above = self.powers.iter().position(|ten| !ten.is_at_most(&power));
        above.unwrap() as u16 - 1
    }

    fn log(&self, share: usize) -> u16 {
        self.logs[share - 1]
    }
}

/// The lowest number that applies.
fn first_refusal(row: &[u32]) -> Option<u8> {
    let sum: u128 = row.iter().map(|&slot| u128::from(slot)).sum();
    match row.len() {
        0 => Some(13),
        slots if slots > 16_384 => Some(13),
        _ if sum > LAST.into() => Some(15),
        _ if sum == 0 => Some(17),
        _ => None,
    }
}

/// What a row has still to come, at each slot and behind the last: R(0), R(1), ...
struct Remaining(Vec<u128>);

impl Remaining {
    /// Adds up from each slot anew.
    fn by_definition(row: &[u32]) -> Self {
        let from = |k: usize| row[k..].iter().map(|&slot| u128::from(slot)).sum();
        Self((0..=row.len()).map(from).collect())
    }

    /// Adds up once, from the last slot to the first.
    fn from_the_end(row: &[u32]) -> Self {
        let mut left = vec![0];
        for &slot in row.iter().rev() {
            left.push(left[left.len() - 1] + u128::from(slot));
        }
        left.reverse();
        Self(left)
    }

    fn first(&self, passes: impl Fn(u128, u128) -> bool) -> u64 {
        let whole = self.0[0];
        let first = self.0.iter().position(|&left| passes(left, whole));
        first.unwrap() as u64
    }

    fn times(&self) -> (u64, u64) {
        let early = self.first(|left, whole| 10 * left <= whole);
        let end = self.first(|left, whole| 100_000 * left * left <= whole * whole);
        let start = self.first(|left, whole| 10 * left * left <= whole * whole);
        (6 * early, 3 * (end - start))
    }

    /// Of each slot, and behind the last.
    fn levels(&self, logs: &Logs) -> Vec<Option<u16>> {
        let share = |left: &u128| (1_024 * left / self.0[0]) as usize;
        let shares = self.0.iter().map(share);
        let level = |share| (share > 0).then(|| logs.log(1_024) - logs.log(share));
        shares.map(level).collect()
    }
}

/// Says its seed if a test fails on it.
struct Seed(u64);

impl Drop for Seed {
    fn drop(&mut self) {
        if thread::panicking() {
            eprintln!("failed on seed {}", self.0);
        }
    }
}

fn on_seeds(seeds: Range<u64>, mut run: impl FnMut(&mut Random)) {
    for seed in seeds {
        let _at = Seed(seed);
        run(&mut Random::new(seed));
    }
}

/// How often each number is answered; 0 is none.
#[derive(Debug, Default)]
struct Counts([usize; 20]);

impl Counts {
    fn count(&mut self, refusal: Option<u8>) {
        self.0[usize::from(refusal.unwrap_or(0))] += 1;
    }

    fn each_is_above(&self, least: usize) -> bool {
        [0, 13, 15, 17].iter().all(|&answer| self.0[answer] > least)
    }
}

#[test]
fn short_rows_by_definition() {
    let logs = Logs::new();
    let mut counts = Counts::default();
    on_seeds(0..20_000, |random| {
        let Case { row, .. } = Case::draw_short(random);
        let refusal = first_refusal(&row);
        counts.count(refusal);
        if let Some(number) = refusal {
            assert_eq!(all(&row, random.draw(), row.len()), [Err(number); 4]);
            return;
        }
        let remaining = Remaining::by_definition(&row);
        assert_eq!(times(&row), remaining.times(), "{row:?}");
        let levels = remaining.levels(&logs);
        assert_eq!(levels[row.len()], None);
        check_levels(&row, &levels[..row.len()]);
    });
    assert!(counts.each_is_above(800), "{counts:?}");
}

#[test]
fn rows_of_all_lengths_from_the_end() {
    let logs = Logs::new();
    let mut counts = Counts::default();
    on_seeds(0..3_000, |random| {
        let Case { row, .. } = Case::draw(random);
        let refusal = first_refusal(&row);
        counts.count(refusal);
        if let Some(number) = refusal {
            assert_eq!(all(&row, random.draw(), row.len()), [Err(number); 4]);
            return;
        }
        let remaining = Remaining::from_the_end(&row);
        assert!(times(&row) == remaining.times());
        let levels = remaining.levels(&logs);
        let expected = levels[..row.len()].iter().copied().map(in_curve);
        assert!(curve_into(&row, row.len()) == Ok(expected.collect()));
        for _ in 0..8 {
            let k = random.below(row.len() as u32 + 1);
            assert_eq!(level(&row, k.into()), Ok(levels[k as usize]), "slot {k}");
        }
    });
    assert!(counts.each_is_above(120), "{counts:?}");
}

/// Every slot of rows up to 1,000 slots. Of longer ones a hundred, and where the curve
/// begins, ends and goes to another level.
#[test]
fn the_curve_is_the_levels_one_by_one() {
    let (mut short, mut long) = (0, 0);
    on_seeds(3_000..4_000, |random| {
        let Case { kind, row } = Case::draw(random);
        if !kind.is_heard() {
            return;
        }
        let curve = curve_into(&row, row.len()).unwrap();
        let last = row.len() - 1;
        let is_long = last >= 1_000;
        let drawn: Vec<bool> = row.iter().map(|_| random.one_in(160)).collect();
        for k in 0..row.len() {
            let turns = k == 0 || k == last || curve[k - 1] != curve[k] || curve[k] != curve[k + 1];
            if !is_long || turns || drawn[k] {
                let level = level(&row, k as u64).unwrap();
                assert_eq!(in_curve(level), curve[k], "slot {k}");
            }
        }
        *(if is_long { &mut long } else { &mut short }) += 1;
    });
    assert!(short > 100 && long > 100, "{short} {long}");
}

/// All of a decay as long as it may be, and what lies beyond the row.
#[test]
fn the_curve_of_the_longest_decay() {
    let mut random = Random::new(5);
    let is_long = |case: &Case| case.kind == Kind::NoisyDecay && case.row.len() == 16_384;
    let mut cases = (0..).map(|_| Case::draw(&mut random)).filter(is_long);
    let Case { row, .. } = cases.next().unwrap();
    let curve = curve_into(&row, 16_400).unwrap();
    for (k, &in_row) in (0..).zip(&curve[..16_384]) {
        assert_eq!(in_curve(level(&row, k).unwrap()), in_row, "slot {k}");
    }
    assert_eq!(curve[16_384..], [UNTOUCHED; 16]);
}
