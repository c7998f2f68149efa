//! How often each kind of what is drawn occurs.

use std::collections::BTreeMap;

pub const SEEDS: u64 = 4_000;
/// The largest sum: 2^32 - 1.
pub const MOST: u64 = 4_294_967_295;

pub type Counts = BTreeMap<&'static str, usize>;

/// Counts the kinds that apply; the others occur, too, if only 0 times.
pub fn count(counts: &mut Counts, kinds: impl IntoIterator<Item = (&'static str, bool)>) {
    for (kind, applies) in kinds {
        *counts.entry(kind).or_default() += usize::from(applies);
    }
}

/// Each kind occurs in that share of all, at least.
pub fn assert_shares(counts: &Counts, all: usize, one_in: usize) {
    println!("{all}: {counts:?}");
    for (kind, count) in counts {
        assert!(count * one_in >= all, "{kind}: {count} of {all}");
    }
}

pub fn sum(row: &[u32]) -> u64 {
    row.iter().map(|&slot| u64::from(slot)).sum()
}
