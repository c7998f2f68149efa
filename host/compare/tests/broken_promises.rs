//! Wrong engines, caught by the promises on the taken list alone.

#[path = "engines/mistaken.rs"]
mod mistaken;

use std::collections::BTreeMap;

use compare::seeded;
use compare::taken_list::{check, Promise, Violation};
use mistaken::{print, Mistake};
use Promise::{EmptyMeansEmpty, NothingPassedOver, OnceEach, TwoTakes};

/// The promises that an engine breaks on an input.
fn broken(mistake: Mistake, input: &[u8]) -> Vec<Promise> {
    match check(input, &print(mistake, input)) {
        Ok(_) => Vec::new(),
        Err(Violation::Broken(broken)) => broken.iter().map(|one| one.promise).collect(),
        Err(Violation::Fault(fault)) => panic!("{mistake:?}: {fault}"),
    }
}

/// By the promises broken, the number of small histories of an engine.
fn tally(mistake: Mistake) -> BTreeMap<Vec<Promise>, usize> {
    let mut tally = BTreeMap::new();
    for seed in 0..4_096 {
        let mut input = Vec::new();
        seeded::history(seed, &mut input);
        *tally.entry(broken(mistake, &input)).or_default() += 1;
    }
    println!("{mistake:?}: {tally:?}");
    tally
}

#[test]
fn without_a_mistake_none_is_broken() {
    let kept: Vec<_> = tally(Mistake::None).into_iter().collect();
    assert_eq!(kept, [(Vec::new(), 4_096)]);
}

/// Each promise is broken by itself, but for 4: two takes in the wrong order have
/// also passed over what the second answers.
#[test]
fn each_promise_is_broken_by_wrong_engines() {
    for (mistake, alone) in [
        (Mistake::LastOfBucket, &[NothingPassedOver][..]),
        (Mistake::PassNextAfterLoss, &[NothingPassedOver]),
        (Mistake::StoredUnlinked, &[NothingPassedOver]),
        (Mistake::TailGoesRound, &[NothingPassedOver]),
        (Mistake::OrderIgnored, &[NothingPassedOver]),
        (Mistake::HigherOrderFirst, &[NothingPassedOver]),
        (Mistake::HigherTicketFirst, &[NothingPassedOver]),
        (Mistake::EmptyBucket, &[EmptyMeansEmpty]),
        (Mistake::StoredAtLink, &[EmptyMeansEmpty]),
        (Mistake::OldEpoch, &[EmptyMeansEmpty]),
        (Mistake::LastOfBucket, &[NothingPassedOver, TwoTakes]),
        (Mistake::PassNextAfterLoss, &[NothingPassedOver, TwoTakes]),
        (Mistake::FreeWhenTaken, &[NothingPassedOver, TwoTakes]),
        (Mistake::TailGoesRound, &[NothingPassedOver, TwoTakes]),
        (Mistake::OrderIgnored, &[NothingPassedOver, TwoTakes]),
        (Mistake::HigherOrderFirst, &[NothingPassedOver, TwoTakes]),
        (Mistake::HigherTicketFirst, &[NothingPassedOver, TwoTakes]),
        (Mistake::TakeMarked, &[OnceEach]),
        (Mistake::FreeWhenMarked, &[OnceEach]),
        (Mistake::StoredUnlinked, &[OnceEach]),
        (Mistake::OtherPath, &[OnceEach]),
    ] {
        let tally = tally(mistake);
        assert!(tally.contains_key(alone), "{mistake:?}, {alone:?}");
        for promises in tally.keys().filter(|some| some.contains(&TwoTakes)) {
            assert!(promises.contains(&NothingPassedOver), "{mistake:?}");
        }
    }
}

/// A node of a higher epoch was put after the take that walks past it had started:
/// of that the promises say nothing, and only the search for an order finds it.
#[test]
fn what_the_promises_do_not_speak_of() {
    let kept: Vec<_> = tally(Mistake::PassOver).into_iter().collect();
    assert_eq!(kept, [(Vec::new(), 4_096)]);
}

/// In files too long for a search, too.
#[test]
fn long_files() {
    for mistake in Mistake::ALL {
        if mistake != Mistake::PassOver {
            let is_caught = |seed| {
                let few = seeded::narrow(seed, 20_000);
                let any = seeded::unrefused(seed, 20_000);
                !broken(mistake, &few.bytes).is_empty() || !broken(mistake, &any.bytes).is_empty()
            };
            assert!((0..8).any(is_caught), "{mistake:?}");
        }
    }
}
