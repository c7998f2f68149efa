//! Arrivals of equal times: the lower reflection order comes first, and of equal orders the
//! lower ticket.

mod common;

use std::collections::HashSet;

use common::noted::Noted;
use common::*;
use schedule::script::{reflection, shape};
use schedule::{orders, ties};
use second::{Answer, Arrival, Response, Shape, Worker};

/// What is printed is in the cases; and a plain queue gives it, too.
#[test]
fn every_case_is_a_queue() {
    for (name, script) in ties::cases().into_iter().chain([("a tie", orders::tie())]) {
        assert!(Noted::play(&script).is_a_queue(), "{name}");
    }
}

/// The list at each pause of the longest case, and where the searches stand in it.
#[test]
fn searches_in_the_list() {
    let mut lent = Lent::play(&ties::about_to_link());
    assert_eq!(lent.keys(0), [(5, 1, 1), (5, 2, 4), (5, 3, 2)]);
    assert_eq!((lent.stage(1), left_and_right(&lent, 1)), (5, (0, 1)));

    let mut lent = Lent::play(&ties::about_to_link_again());
    let keys = [(5, 0, 6), (5, 1, 1), (5, 2, 4), (5, 3, 2)];
    assert_eq!(lent.keys(0), keys);
    assert_eq!((lent.stage(3), lent.workers[3].right), (11, 0));
    assert_eq!((lent.stage(1), left_and_right(&lent, 1)), (5, (0, 3)));

    let mut lent = Lent::play(&ties::about_to_unlink());
    assert_eq!(lent.keys(0), keys);
    assert_eq!((lent.stage(3), lent.workers[3].own), (1, 0));
    assert_eq!((lent.stage(1), left_and_right(&lent, 1)), (3, (4, 0)));

    // Before all is taken, ticket 3 stands behind order 0 and before ticket 4.
    lent.turns(3, 4);
    assert_eq!(lent.keys(0), [(5, 0, 6), (5, 2, 4), (5, 3, 2)]);
    assert_eq!(lent.finish(1), (8, stored(3)));
    assert_eq!(lent.keys(0), [(5, 0, 6), (5, 2, 3), (5, 2, 4), (5, 3, 2)]);
}

/// The nodes that a search stands on; its left is one.
fn left_and_right(lent: &Lent, worker: usize) -> (u64, u64) {
    let Worker { left, right, .. } = lent.workers[worker];
    (left - u64::from(lent.shape.buckets), right)
}

/// Four arrivals one after the other, each of two times and two orders, in every way: in
/// one bucket, and with a time in each of two.
#[test]
fn four_puts_in_every_way() {
    for shape in [shape(1, 4, 1, 10), shape(1, 4, 2, 6)] {
        for way in 0..256 {
            let arrivals: Vec<Arrival> = (0..4)
                .map(|nth| (way >> (2 * nth) & 3, nth))
                .map(|(kind, nth)| reflection(5 + kind / 2, kind % 2, nth))
                .collect();
            sorted_and_drained(shape, &arrivals);
        }
    }
}

/// The lowest and highest orders next to each other, each with the one beside it.
#[test]
fn the_ends_of_the_orders() {
    for orders in [[63, 62, 0, 1], [0, 63, 1, 62], [62, 63, 63, 0]] {
        let paths = 0..;
        let arrivals = orders.into_iter().zip(paths);
        let arrivals: Vec<_> = arrivals
            .map(|(order, path)| reflection(u32::MAX, order, path))
            .collect();
        sorted_and_drained(shape(1, 4, 2, 10), &arrivals);
    }
}

/// Puts the arrivals, whose paths count them, and takes them by time, order and path.
fn sorted_and_drained(shape: Shape, arrivals: &[Arrival]) {
    let mut lent = Lent::open(shape);
    for &arrival in arrivals {
        lent.put_arrival(0, arrival).unwrap();
        lent.finish(0).1.unwrap();
    }
    let mut sorted: Vec<_> = arrivals
        .iter()
        .map(|arrival| (arrival.time, arrival.order, arrival.path))
        .map(|(time, order, path)| (u64::from(time), u64::from(order), u64::from(path)))
        .collect();
    sorted.sort_unstable();
    let in_lists: Vec<_> = (0..shape.buckets as usize)
        .flat_map(|bucket| lent.keys(bucket))
        .map(|(time, order, ticket)| (time, order, ticket - 1))
        .collect();
    assert_eq!(in_lists, sorted);
    for expected in sorted {
        assert_eq!(taken(lent.take_whole(0)), Some(expected));
    }
    assert_eq!(lent.take_whole(0), EMPTY);
}

/// Of what a take answered; the path in place of the ticket.
fn taken(answer: Answer) -> Option<Key> {
    match answer {
        Ok(Response::Took {
            time, path, order, ..
        }) => Some((time, order, path)),
        _ => None,
    }
}

/// Order 1 is stored. Two puts and a take at once, in every order of their turns: keys rise
/// in the list at any moment, and the take gets none behind order 1.
#[test]
fn two_puts_and_a_take_in_every_interleaving() {
    for (first, second) in [(0, 0), (0, 1), (1, 0), (1, 1), (2, 0), (2, 1)] {
        let mut lent = Lent::open(shape(3, 3, 1, 10));
        for (worker, order) in [(2, 1), (0, first), (1, second)] {
            lent.put_arrival(worker, reflection(5, order, 7)).unwrap();
            if worker == 2 {
                lent.finish(worker).1.unwrap();
            }
        }
        let all = [(5, 1, 1), (5, first.into(), 2), (5, second.into(), 3)];
        lent.take(2).unwrap();
        let mut met = HashSet::new();
        every_interleaving(lent, &all, &mut met);
        assert!(met.len() > 500, "{}", met.len());
    }
}

/// Gives each busy worker the next turn, unless the pool was met before.
fn every_interleaving(mut lent: Lent, all: &[Key], met: &mut HashSet<String>) {
    if !met.insert(format!("{lent:?}")) {
        return;
    }
    let keys = lent.keys(0);
    assert!(keys.windows(2).all(|pair| pair[0] < pair[1]), "{keys:?}");
    let busy: Vec<_> = (0..3).filter(|&worker| lent.stage(worker) != 0).collect();
    for &worker in &busy {
        let mut next = lent.clone();
        next.turn(worker).unwrap();
        every_interleaving(next, all, met);
    }
    if busy.is_empty() {
        let taken: Vec<_> = all.iter().filter(|key| !keys.contains(key)).collect();
        assert!(
            taken.len() == 1 && *taken[0] <= all[0],
            "{taken:?} of {all:?}"
        );
    }
}
