//! The decay of rows against the second program: any row, slot number and buffer.

mod common;

use std::collections::BTreeSet;

use common::both_decays::{BothDecays, UNTOUCHED};
use common::seeds::on_seeds;
use schedule::rows::{Case, Kind};
use schedule::Random;
use wubraken::Echogram;

const CASES: usize = 400;
const SHORT_ROWS: usize = 4_000;
const SUMS: usize = 400;
const MAX: u64 = u32::MAX as u64;

/// A slot number of any kind: in the row, at its end, past it, and some of which a part
/// is that of a slot.
fn slot(random: &mut Random, slots: usize) -> u64 {
    let (slots, within) = (slots as u64, random.below(slots as u32 + 1).into());
    match random.below(8) {
        0 => 0,
        1 => slots.saturating_sub(1),
        2 => slots,
        3 => slots + u64::from(random.length(15)),
        4 => random.choose(&[1 << 16, 1 << 32, 1 << 61, 1 << 62, 1 << 63]) | within,
        5 => u64::MAX - within,
        _ => within,
    }
}

/// As many places as slots, fewer or more.
fn places(random: &mut Random, slots: usize) -> usize {
    match random.below(8) {
        0 => 0,
        1 => slots.saturating_sub(1),
        2 => random.below(slots as u32 + 1) as usize,
        3 => slots + 1,
        4 => slots + random.length(12) as usize,
        _ => slots,
    }
}

/// All that is measured of a row; the numbers answered.
fn measure(random: &mut Random, row: &[u32]) -> BTreeSet<u64> {
    let rows = BothDecays::new(row);
    let mut seen = BTreeSet::from([rows.early_decay().number, rows.t20().number]);
    for _ in 0..8 {
        seen.insert(rows.level(slot(random, row.len())).number);
    }
    for _ in 0..3 {
        seen.insert(rows.decay_curve(places(random, row.len())).0);
    }
    seen
}

#[test]
fn any_row() {
    on_seeds("decay, any row", |random| {
        let (mut seen, mut kinds) = (BTreeSet::new(), BTreeSet::new());
        for _ in 0..CASES {
            let case = Case::draw(random);
            let numbers = measure(random, &case.row);
            assert_eq!(numbers.contains(&0), case.kind.is_heard());
            seen.extend(numbers);
            kinds.insert(case.kind);
        }
        assert_eq!(seen, BTreeSet::from([0, 13, 15, 17, 19]));
        assert_eq!(kinds.len(), Kind::ALL.len());
    });
}

/// The level of each slot is that of the curve, and past the end there is none.
fn every_slot(row: &[u32]) {
    let rows = BothDecays::new(row);
    let (number, levels) = rows.decay_curve(rows.slots());
    let past = [Echogram::NO_LEVEL; 2];
    for (slot, &level) in (0..).zip(levels.iter().chain(&past)) {
        let measured = rows.level(slot);
        assert_eq!(measured.number, number);
        if number == 0 {
            assert_eq!(measured.value, level.into(), "slot {slot}");
        }
    }
}

#[test]
fn every_slot_of_short_rows() {
    on_seeds("decay, short rows", |random| {
        let mut seen = BTreeSet::new();
        for _ in 0..SHORT_ROWS {
            let case = Case::draw_short(random);
            if case.kind == Kind::TooLong {
                continue;
            }
            seen.extend(measure(random, &case.row));
            every_slot(&case.row);
        }
        assert_eq!(seen, BTreeSet::from([0, 13, 15, 17, 19]));
    });
}

/// Some of a few thousand slots, and one of the most.
#[test]
fn every_slot_of_long_rows() {
    on_seeds("decay, long rows", |random| {
        let row = loop {
            let Case { kind, row } = Case::draw(random);
            if kind.is_heard() && (1_000..5_000).contains(&row.len()) {
                break row;
            }
        };
        every_slot(&row);
    });
    let slots = 0..Echogram::MAX_SLOTS as u32;
    let longest: Vec<u32> = slots.map(|slot| 262_143 >> (slot / 1_024)).collect();
    every_slot(&longest);
}

/// What is measured of a row where R(0) is `sum` and R(at) is `rest`, with zeros around.
fn measure_rest(random: &mut Random, sum: u64, rest: u64) {
    let (at, behind) = (random.between(1, 3) as usize, random.below(3) as usize);
    let mut row = vec![0; at + behind + 1];
    row[random.below(at as u32) as usize] = (sum - rest) as u32;
    row[at + random.below(behind as u32 + 1) as usize] = rest as u32;
    measure(random, &row);
    every_slot(&row);
}

/// Each share of the whole, in 1,024ths, begins at some rest.
#[test]
fn rests_around_every_share() {
    on_seeds("decay, shares", |random| {
        for share in 1..=1_024 {
            for sum in [1_024, MAX, sum(random)] {
                let first = (share * sum + 1_023) / 1_024;
                measure_rest(random, sum, first - 1);
                measure_rest(random, sum, first);
                measure_rest(random, sum, sum.min(first + 1));
            }
        }
    });
}

/// From 1 to 2^32 - 1, of any number of bits.
fn sum(random: &mut Random) -> u64 {
    let bits = random.between(1, 32);
    (random.draw() >> (64 - bits)).max(1)
}

/// The largest rest that passes a test, which all lower ones pass.
fn largest_rest(sum: u64, passes: impl Fn(u128) -> bool) -> u64 {
    let (mut low, mut high) = (0, sum);
    while low < high {
        let middle = high - (high - low) / 2;
        match passes(middle.into()) {
            true => low = middle,
            false => high = middle - 1,
        }
    }
    low
}

/// Where a tenth of the sum is left, and of its square a tenth and a part in 100,000.
#[test]
fn rests_around_every_crossing() {
    on_seeds("decay, crossings", |random| {
        for _ in 0..SUMS {
            let sum = match random.one_in(4) {
                true => MAX - u64::from(random.below(9)),
                false => sum(random),
            };
            let (whole, square) = (u128::from(sum), u128::from(sum).pow(2));
            for rest in [
                largest_rest(sum, |rest| 10 * rest <= whole),
                largest_rest(sum, |rest| 10 * rest.pow(2) <= square),
                largest_rest(sum, |rest| 100_000 * rest.pow(2) <= square),
            ] {
                for rest in [rest.saturating_sub(1), rest, rest + 1] {
                    measure_rest(random, sum, rest);
                }
            }
        }
    });
}

/// A buffer of each length, to one that is longer than the row.
#[test]
fn buffers_of_every_length() {
    on_seeds("decay, buffers", |random| {
        for _ in 0..CASES {
            let case = Case::draw_short(random);
            let rows = BothDecays::new(&case.row);
            let slots = rows.slots().min(20);
            for places in 0..slots + 3 {
                let (number, levels) = rows.decay_curve(places);
                assert_eq!(number == 0, case.kind.is_heard() && places >= slots);
                let untouched = if number == 0 { slots } else { 0 };
                assert!(levels[untouched..].iter().all(|&level| level == UNTOUCHED));
            }
        }
    });
}
