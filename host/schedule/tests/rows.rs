//! Random rows: that each kind occurs, and is what its name says.

mod common;

use std::collections::BTreeMap;

use common::{assert_shares, count, sum, Counts, MOST, SEEDS};
use schedule::rows::{Case, Kind};
use schedule::Random;

fn heard(row: &[u32]) -> usize {
    row.iter().filter(|&&slot| slot > 0).count()
}

fn cases() -> impl Iterator<Item = Case> {
    (0..SEEDS).map(Case::new)
}

/// The rows of a kind, of which there must be some.
fn rows(kind: Kind) -> Vec<Vec<u32>> {
    let of_kind = cases().filter(|case| case.kind == kind);
    let rows: Vec<_> = of_kind.map(|case| case.row).collect();
    assert!(rows.len() as u64 > SEEDS / 50, "{kind:?}: {}", rows.len());
    rows
}

/// Checks each row of a kind.
fn check(kind: Kind, is_good: impl Fn(&[u32]) -> bool) {
    for row in rows(kind) {
        assert!(is_good(&row), "{kind:?}: {row:?}");
    }
}

#[test]
fn a_seed_has_one_case() {
    for seed in 0..100 {
        let case = Case::new(seed);
        assert_eq!(case, Case::draw(&mut Random::new(seed)), "seed {seed}");
    }
    let differ = (0..100).filter(|&seed| Case::new(seed) != Case::new(seed + 1));
    assert!(differ.count() > 90);
}

#[test]
fn every_kind_is_listed_once() {
    let mut kinds = Kind::ALL.to_vec();
    kinds.sort();
    kinds.dedup();
    assert_eq!(kinds, Kind::ALL);
    // The last one there is.
    assert_eq!(Kind::Overfull as usize, Kind::ALL.len() - 1);
}

#[test]
fn lengths_of_every_kind() {
    let (mut counts, mut all) = (Counts::new(), 0);
    for case in cases() {
        let slots = case.row.len();
        let kinds = [
            ("0", slots == 0),
            ("1", slots == 1),
            ("2", slots == 2),
            ("3 to 99", (3..100).contains(&slots)),
            ("100 to 9999", (100..10_000).contains(&slots)),
            ("10000 to 16383", (10_000..16_384).contains(&slots)),
            ("16384", slots == 16_384),
            ("16385", slots == 16_385),
            ("more", slots > 16_385),
        ];
        count(&mut counts, kinds);
        all += 1;
    }
    assert_shares(&counts, all, 100);
}

/// Of each kind that may have them.
#[test]
fn the_longest_and_short_ones() {
    use Kind::*;
    let mut counts = BTreeMap::new();
    for Case { kind, row } in cases() {
        let (longest, short) = counts.entry(kind).or_insert((0, 0));
        *longest += u32::from(row.len() == 16_384);
        *short += u32::from(row.len() <= 3);
    }
    for kind in [Empty, TooLong, OneSlot] {
        counts.remove(&kind);
    }
    assert_eq!(counts.len(), Kind::ALL.len() - 3);
    for (kind, (longest, short)) in counts {
        assert!(longest > 10 && short > 10, "{kind:?}: {longest}, {short}");
    }
}

#[test]
fn short_cases() {
    let mut random = Random::new(1);
    let mut counts = BTreeMap::new();
    for _ in 0..SEEDS {
        let case = Case::draw_short(&mut random);
        assert!(case.row.len() <= 20 || case.kind == Kind::TooLong);
        *counts.entry(case.kind).or_insert(0) += 1;
    }
    assert_eq!(counts.len(), Kind::ALL.len(), "{counts:?}");
}

/// Which kinds are within the limits and have some energy, but not too much.
#[test]
fn those_that_are_heard() {
    for case in cases() {
        let has_length = (1..=16_384).contains(&case.row.len());
        let has_sum = (1..=MOST).contains(&sum(&case.row));
        let kind = case.kind;
        assert_eq!(kind.is_heard(), has_length && has_sum, "{kind:?}");
    }
}

#[test]
fn outside_the_limits() {
    check(Kind::Empty, |row| row.is_empty());
    check(Kind::TooLong, |row| row.len() > 16_384);
    let (mut counts, mut all) = (Counts::new(), 0);
    for row in rows(Kind::TooLong) {
        let kinds = [
            ("by one slot", row.len() == 16_385),
            ("silent", sum(&row) == 0),
            ("with a good sum", (1..=MOST).contains(&sum(&row))),
            ("with too large a sum", sum(&row) > MOST),
        ];
        count(&mut counts, kinds);
        all += 1;
    }
    assert_shares(&counts, all, 10);
}

#[test]
fn zeros() {
    let is_all_zeros = |row: &[u32]| heard(row) == 0;
    check(Kind::Silent, |row| !row.is_empty() && is_all_zeros(row));
    check(Kind::ZerosInFront, |row| {
        let first = row.iter().position(|&slot| slot > 0).unwrap();
        first > 0 && heard(&row[first..]) == row.len() - first
    });
    check(Kind::ZerosAtEnd, |row| {
        let zeros = row.iter().position(|&slot| slot == 0).unwrap();
        zeros > 0 && is_all_zeros(&row[zeros..])
    });
}

#[test]
fn few_slots_with_energy() {
    check(Kind::OneSlot, |row| row.len() == 1 && row[0] > 0);
    check(Kind::Spike, |row| heard(row) == 1);
    check(Kind::Sparse, |row| {
        (1..=(row.len() / 4).max(1)).contains(&heard(row))
    });
    let (mut counts, mut all) = (Counts::new(), 0);
    for row in rows(Kind::Spike) {
        let at = row.iter().position(|&slot| slot > 0).unwrap();
        let (last, slot) = (row.len() - 1, u64::from(row[at]));
        let kinds = [
            ("in front", at == 0 && last > 0),
            ("at the end", at == last && last > 0),
            ("between", at > 0 && at < last),
            ("of 2^32 - 1", slot == MOST),
            ("small", slot < 1_024),
            ("large", (1 << 24..MOST).contains(&slot)),
        ];
        count(&mut counts, kinds);
        all += 1;
    }
    assert_shares(&counts, all, 20);
}

#[test]
fn all_slots_with_energy() {
    check(Kind::Dense, |row| heard(row) == row.len());
    check(Kind::Equal, |row| {
        row[0] > 0 && row.iter().all(|&slot| slot == row[0])
    });
    let (mut counts, mut all) = (Counts::new(), 0);
    for row in rows(Kind::Dense) {
        let largest = *row.iter().max().unwrap();
        let kinds = [
            ("of a few", largest < 16),
            ("of more", (16..1 << 12).contains(&largest)),
            ("of many", largest >= 1 << 12),
        ];
        count(&mut counts, kinds);
        all += 1;
    }
    assert_shares(&counts, all, 10);
}

/// A slot is the one before it times some rate, and off by less than 1. So the product of
/// two slots that have one between them is the square of that one, and off by less than
/// what it and the first of them hold.
fn is_steady(row: &[u32]) -> bool {
    let slots: Vec<u64> = row.iter().map(|&slot| slot.into()).collect();
    let mut triples = slots.windows(3);
    triples.all(|of| (of[1] * of[1]).abs_diff(of[0] * of[2]) <= of[0] + of[1])
}

fn rises(row: &[u32]) -> bool {
    row.windows(2).any(|pair| pair[0] < pair[1])
}

/// The first half of 8 slots or more has more than the second one.
fn falls(row: &[u32]) -> bool {
    let (front, end) = row.split_at((row.len() + 1) / 2);
    row.len() < 8 || sum(front) > sum(end)
}

#[test]
fn decays() {
    check(Kind::Decay, |row| is_steady(row) && falls(row));
    check(Kind::NoisyDecay, falls);
    let noisy = rows(Kind::NoisyDecay);
    let unsteady = noisy.iter().filter(|row| !is_steady(row) && rises(row));
    assert!(3 * unsteady.count() > noisy.len());
}

/// From less than 10 slots to a thousand and more, until a tenth is left.
#[test]
fn decays_of_several_rates() {
    for kind in [Kind::Decay, Kind::NoisyDecay] {
        let (mut counts, mut all) = (Counts::new(), 0);
        for row in rows(kind) {
            let slots = second::early_decay(&row).unwrap() / 6;
            let kinds = [
                ("below 10", slots < 10),
                ("10 to 99", (10..100).contains(&slots)),
                ("100 to 999", (100..1_000).contains(&slots)),
                ("1000 or more", slots >= 1_000),
            ];
            count(&mut counts, kinds);
            all += 1;
        }
        assert_shares(&counts, all, 20);
    }
}

#[test]
fn a_tenth_is_left() {
    check(Kind::Tenth, |row| {
        let whole = sum(row);
        let mut left = whole;
        row.iter().any(|&slot| {
            left -= u64::from(slot);
            10 * left == whole
        })
    });
}

#[test]
fn sums_at_the_border() {
    check(Kind::LargestSum, |row| sum(row) == MOST);
    check(Kind::SumOneAbove, |row| sum(row) == MOST + 1);
    check(Kind::SumAbove, |row| {
        (MOST + 2..=MOST + 9).contains(&sum(row))
    });
    check(Kind::Overfull, |row| {
        row.len() > 1 && row.iter().all(|&slot| u64::from(slot) == MOST)
    });
    for kind in [Kind::LargestSum, Kind::SumOneAbove, Kind::SumAbove] {
        let rows = rows(kind);
        let spread = rows.iter().filter(|row| 2 * heard(row) > row.len());
        assert!(2 * spread.count() > rows.len(), "{kind:?}");
    }
}
