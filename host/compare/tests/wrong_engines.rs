//! Engines that make one mistake each. Small histories must find every one of them.

#[path = "engines/mistaken.rs"]
mod mistaken;

use compare::linearizability::check;
use compare::seeded;
use mistaken::{print, Mistake};

/// How many histories show a mistake, of those with these seeds.
fn caught(mistake: Mistake, seeds: std::ops::Range<u64>) -> usize {
    let is_caught = |seed: &u64| {
        let mut input = Vec::new();
        seeded::history(*seed, &mut input);
        check(&input, &print(mistake, &input)).is_err()
    };
    seeds.filter(is_caught).count()
}

#[test]
fn without_a_mistake_nothing_is_caught() {
    assert_eq!(caught(Mistake::None, 0..640), 0);
}

#[test]
fn every_mistake_is_caught() {
    for mistake in Mistake::ALL {
        let caught = caught(mistake, 0..4_096);
        println!("{mistake:?}: {caught}");
        assert!(caught > 0, "{mistake:?}");
    }
}
