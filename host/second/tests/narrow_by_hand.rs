//! Narrow calls on damaged heads and nodes, by hand: the rule is done with the words
//! found, and what it puts out of range into the record is refused by 3 afterwards.
//! The other calls refuse all of this by 3 at once.

mod common;

use common::*;
use schedule::script::shape;
use second::layout::{field, CURRENT, STARTED};
use second::{word, Answer, Response, Worker};

/// A node that there is none of, far away.
const FAR: u64 = 1 << 40;

fn put(lent: &mut Lent, worker: usize, time: u32) -> Answer {
    lent.narrow(worker, Call::Put(arrival(time)), 0)
}

fn take(lent: &mut Lent, worker: usize) -> Answer {
    lent.narrow(worker, Call::Take, 0)
}

/// A narrow turn where the other one is refused by 3.
fn turn(lent: &mut Lent, worker: usize) -> Answer {
    assert_eq!(lent.turn(worker), refused(3));
    lent.narrow(worker, Call::Turn, 0)
}

/// A turn that answers `on`, changes no word of the store and makes this of the
/// worker's record.
fn reads(lent: &mut Lent, worker: usize, expected: Worker) {
    let before = lent.store.clone();
    assert_eq!(turn(lent, worker), ON);
    assert_eq!(lent.workers[worker], expected);
    assert_eq!(lent.store, before);
}

/// Every narrow call on this worker is refused by 3, and so is the start of a put on
/// its neighbour.
fn is_stuck(lent: &mut Lent, worker: usize) {
    assert_eq!(put(lent, worker, 5), refused(3));
    assert_eq!(take(lent, worker), refused(3));
    assert_eq!(turn(lent, worker), refused(3));
    assert_eq!(lent.narrow(worker, Call::Turn, 9), refused(3));
    assert_eq!(put(lent, 1 - worker, 5), refused(3));
}

/// Node 0 has time 5, and worker 0 puts at another one: it is at stage 2, about to
/// read node 0.
fn searching(time: u32) -> Lent {
    let mut lent = Lent::with_stored(shape(2, 4, 2, 10), &[5]);
    lent.put(0, time).unwrap();
    lent.turns_to(0, 2);
    assert_eq!((lent.workers[0].right, lent.workers[0].own), (0, 1));
    lent
}

/// Node 0 has time 5, and worker 0 takes: it is at this stage.
fn taking(stage: u64) -> Lent {
    let mut lent = Lent::with_stored(shape(2, 4, 2, 10), &[5]);
    lent.take(0).unwrap();
    lent.turns_to(0, stage);
    lent
}

// Heads.

#[test]
fn a_search_reads_a_head_that_leads_nowhere() {
    let mut lent = Lent::open(shape(2, 4, 2, 10));
    lent.put(0, 5).unwrap();
    *lent.head(0) = word::link(FAR);
    let seen = Worker {
        stage: 2,
        right: FAR,
        ..lent.workers[0]
    };
    reads(&mut lent, 0, seen);
    is_stuck(&mut lent, 0);

    // The neighbour's own record is in range.
    assert_eq!(turn(&mut lent, 1), refused(10));
    assert_eq!(take(&mut lent, 1), begun(2));
    assert_eq!(turn(&mut lent, 1), ON);
    assert_eq!(lent.stage(1), 9);
}

#[test]
fn a_take_reads_a_head_that_leads_nowhere() {
    for head in [word::link(FAR), word::marked(word::link(FAR))] {
        let mut lent = taking(9);
        *lent.head(0) = head;
        let seen = Worker {
            stage: 10,
            right: FAR,
            ..lent.workers[0]
        };
        reads(&mut lent, 0, seen);
        is_stuck(&mut lent, 0);
    }
}

/// The largest word has the largest successor.
#[test]
fn a_head_of_ones() {
    let mut lent = taking(9);
    *lent.head(0) = u64::MAX;
    let seen = Worker {
        stage: 10,
        right: u64::MAX / 2,
        ..lent.workers[0]
    };
    reads(&mut lent, 0, seen);
    is_stuck(&mut lent, 0);
}

/// A head's mark is not looked at when the head is read, but no swap succeeds on it.
#[test]
fn a_marked_head() {
    // The end, marked, is the end: a take leaves the bucket and finds nothing.
    let mut lent = taking(9);
    *lent.head(0) = word::marked(word::link(4));
    assert_eq!(turn(&mut lent, 0), ON);
    assert_eq!((lent.stage(0), lent.workers[0].right), (12, 4));
    assert_eq!(lent.narrow(0, Call::Turn, 9), EMPTY);

    // A put reaches 5, fails there and begins again: 1, 4, 5, and round.
    let mut lent = Lent::open(shape(2, 4, 2, 10));
    *lent.head(0) = word::marked(word::link(4));
    assert_eq!(put(&mut lent, 0, 5), begun(1));
    for stage in [4, 5, 1, 4, 5, 1] {
        assert_eq!(turn(&mut lent, 0), ON);
        assert_eq!(lent.stage(0), stage);
    }
    assert_eq!(*lent.head(0), word::marked(word::link(4)));

    // A take at 3 fails, and does not retire its node.
    let mut lent = taking(3);
    *lent.head(0) = word::marked(word::link(0));
    for stage in [1, 2, 3, 1] {
        assert_eq!(turn(&mut lent, 0), ON);
        assert_eq!(lent.stage(0), stage);
    }
    assert_eq!(*lent.node_word(0, field::RECLAMATION), 1);
}

// Links.

#[test]
fn a_search_reads_a_link_that_leads_nowhere() {
    let marked = word::marked(word::link(FAR));
    for (time, link, stage, left, right) in [
        // Marked: to be unlinked.
        (7, marked, 3, 0, 0),
        // Lower than the own key: passed.
        (7, word::link(FAR), 2, 2, FAR),
        // Higher: the search ends.
        (3, word::link(FAR), 4, 0, 0),
    ] {
        let mut lent = searching(time);
        *lent.node_word(0, field::LINK) = link;
        let seen = Worker {
            stage,
            left,
            right,
            link_seen: link,
            ..lent.workers[0]
        };
        reads(&mut lent, 0, seen);
        is_stuck(&mut lent, 0);
    }
}

/// A take whose search ends at such a link answers; its idle record is stuck.
#[test]
fn a_take_answers_and_leaves_a_link_out_of_range() {
    let mut lent = taking(1);
    // Its own node is not marked any more, and leads nowhere.
    *lent.node_word(0, field::LINK) = word::link(FAR);
    assert_eq!(turn(&mut lent, 0), ON);
    assert_eq!(turn(&mut lent, 0), took(5));
    assert_eq!((lent.stage(0), lent.workers[0].link_seen), (0, 2 * FAR));
    is_stuck(&mut lent, 0);
}

#[test]
fn a_take_reads_a_link_that_leads_nowhere() {
    let marked = word::marked(word::link(FAR));
    for (link, stage, right) in [(marked, 10, FAR), (word::link(FAR), 11, 0)] {
        let mut lent = taking(10);
        *lent.node_word(0, field::LINK) = link;
        let seen = Worker {
            stage,
            right,
            link_seen: link,
            ..lent.workers[0]
        };
        reads(&mut lent, 0, seen);
        is_stuck(&mut lent, 0);
    }
}

/// Swaps compare whole words: one that has only the low half seen is another.
#[test]
fn swaps_of_damaged_words_fail() {
    // 11 to 10.
    let mut lent = taking(11);
    *lent.node_word(0, field::LINK) |= 1 << 32;
    let back = Worker {
        stage: 10,
        ..lent.workers[0]
    };
    reads(&mut lent, 0, back);

    // 3 to 1, with a node's link as the left word.
    let mut lent = Lent::with_stored(shape(2, 4, 2, 10), &[5, 6]);
    *lent.node_word(1, field::LINK) |= 1;
    lent.put(0, 7).unwrap();
    lent.turns_to(0, 3);
    assert_eq!((lent.workers[0].left, lent.workers[0].right), (2, 1));
    *lent.node_word(0, field::LINK) |= 1 << 63;
    let back = Worker {
        stage: 1,
        ..lent.workers[0]
    };
    reads(&mut lent, 0, back);

    // 5 to 1.
    let mut lent = searching(7);
    lent.turns_to(0, 5);
    assert_eq!(lent.workers[0].left, 2);
    *lent.node_word(0, field::LINK) |= 1 << 32;
    let back = Worker {
        stage: 1,
        ..lent.workers[0]
    };
    reads(&mut lent, 0, back);
}

// Keys and epochs.

/// Keys of any size are compared whole: time, then reflection order, then ticket.
#[test]
fn keys_out_of_range() {
    const MAX: u64 = u64::MAX;
    // The node's key, the own key, and whether the node is passed.
    for (node, own, passes) in [
        ((1 << 32, 0, 0), (7, 0, 0), false),
        ((MAX, 0, 0), (7, 0, 0), false),
        ((5, 0, 0), (1 << 32, 0, 0), true),
        ((FAR, 0, 0), (FAR + 1, 0, 0), true),
        // No order makes up for a time, and no ticket for an order.
        ((FAR, MAX, MAX), (FAR + 1, 0, 0), true),
        ((FAR + 1, 0, 0), (FAR, MAX, MAX), false),
        ((5, 64, MAX), (5, 65, 0), true),
        ((5, 65, 0), (5, 64, MAX), false),
        // Their low bits say the opposite.
        ((5, 1, 0), (5, 1 << 8, 0), true),
        ((5, 1 << 32, 0), (5, 63, 0), false),
        ((5, FAR, 1), (5, FAR + 1, 1), true),
        ((FAR, FAR, 1), (FAR, FAR, FAR), true),
        ((FAR, FAR, FAR), (FAR, FAR, 1), false),
        ((MAX, MAX, MAX), (MAX, MAX, MAX), false),
    ] {
        let mut lent = searching(7);
        lent.set_key(0, node);
        lent.set_key(1, own);
        *lent.head(1) = u64::MAX;
        assert_eq!(turn(&mut lent, 0), ON);
        let expected = if passes { (2, 4) } else { (0, 0) };
        assert_eq!((lent.workers[0].left, lent.workers[0].right), expected);
        assert_eq!(lent.stage(0), 4);
        // Both are linked, in this order.
        assert_eq!(lent.narrow(0, Call::Turn, 9), stored(2));
        let expected = match passes {
            true => [node, own],
            false => [own, node],
        };
        assert_eq!(lent.keys(0), expected);
    }
}

/// Any epoch above the one seen sends a take back to 8, also one whose low half is
/// not above it.
#[test]
fn epochs_out_of_range() {
    for epoch in [1 << 32, FAR, u64::MAX] {
        for seen in [1, word::MAX_COUNT] {
            let mut lent = taking(8);
            lent.store[CURRENT] = seen;
            *lent.node_word(0, field::EPOCH) = epoch;
            for stage in [9, 10, 8, 9, 10, 8] {
                assert_eq!(turn(&mut lent, 0), ON);
                assert_eq!(lent.stage(0), stage);
            }
            assert_eq!(lent.narrow(0, Call::Turn, 999), ON);
        }
    }
}

// Answers.

/// What a take answers whose own node has these words.
fn answer_of(words: [(usize, u64); 4]) -> Answer {
    let mut lent = taking(3);
    for (field, value) in words {
        *lent.node_word(0, field) = value;
    }
    lent.narrow(0, Call::Turn, 0)
}

#[test]
fn a_take_answers_the_words_it_finds() {
    for (distance, expected) in [
        (0, 0),
        (3, 1_864_135),
        (1_024, 16),
        (1_025, 15),
        (2_000, 4),
        (2_364, 3),
        (2_365, 2),
        (2_896, 2),
        (2_897, 1),
        (4_096, 1),
        (4_097, 0),
        (5_000, 0),
        (1 << 31, 0),
        (1 << 32, 0),
        ((1 << 32) + 3, 0),
        (FAR, 0),
        (u64::MAX, 0),
    ] {
        let answer = answer_of([
            (field::TIME, u64::MAX),
            (field::PATH, 65_536),
            (field::ORDER, FAR),
            (field::DISTANCE, distance),
        ]);
        let expected = Response::Took {
            time: u64::MAX,
            path: 65_536,
            order: FAR,
            distance,
            energy: expected,
        };
        assert_eq!(answer, Ok(expected));
    }
}

// Standings.

/// The answer to a put where node 2 has this standing and all others are in use, and
/// a call with this ticket is in progress, or none.
fn put_by_standing(standing: u64, ticket: Option<u64>) -> Answer {
    let mut lent = Lent::open(shape(2, 4, 2, 10));
    for node in 0..4 {
        *lent.node_word(node, field::RECLAMATION) = 1;
    }
    *lent.node_word(2, field::RECLAMATION) = standing;
    if let Some(ticket) = ticket {
        lent.workers[1] = Worker {
            ticket,
            ..record_at(8)
        };
    }
    let answer = put(&mut lent, 0, 5);
    if answer.is_ok() {
        assert_eq!(lent.workers[0].own, 2);
        assert_eq!(*lent.node_word(2, field::RECLAMATION), 1);
    }
    answer
}

#[test]
fn standings_out_of_range() {
    // Among them words whose low half is 0, 1 or 2.
    for standing in [FAR, FAR + 1, FAR + 2, (1 << 32) + 2, u64::MAX] {
        assert_eq!(put_by_standing(standing, None), begun(1));
        for ticket in [0, 1, word::MAX_COUNT] {
            assert_eq!(put_by_standing(standing, Some(ticket)), refused(12));
        }
    }
    // The bounds of the range, for comparison: 2 + s against a ticket of s + 1 and s.
    let largest = word::MAX_COUNT;
    assert_eq!(put_by_standing(1 + largest, Some(largest)), begun(1));
    assert_eq!(put_by_standing(2 + largest, Some(largest)), refused(12));
    assert_eq!(put_by_standing(1, None), refused(12));
}

/// The first free node in the order of rule G3, also where others are damaged.
#[test]
fn the_first_free_node_among_damaged_ones() {
    let mut lent = Lent::open(shape(2, 4, 2, 10));
    lent.take(1).unwrap();
    for (node, standing) in [(0, FAR), (1, u64::MAX), (2, 2), (3, 0)] {
        *lent.node_word(node, field::RECLAMATION) = standing;
    }
    // 0 and 1 rest, as the take's ticket is 1; 2 was unlinked before it.
    assert_eq!(put(&mut lent, 0, 5), begun(2));
    assert_eq!(lent.workers[0].own, 2);
}

/// A put writes over whatever its node held, link and epoch last.
#[test]
fn a_put_repairs_its_node() {
    let mut lent = Lent::open(shape(2, 1, 2, 10));
    for word in 0..8 {
        *lent.node_word(0, word) = u64::MAX;
    }
    assert_eq!(put(&mut lent, 0, 5), begun(1));
    let words = [u64::MAX, 5, 1, 7, 1, 3, u64::MAX, 1];
    for (word, expected) in words.into_iter().enumerate() {
        assert_eq!(*lent.node_word(0, word), expected);
    }
    assert_eq!(turn(&mut lent, 0), ON);
    assert_eq!(turn(&mut lent, 0), ON);
    assert!(lent.is_in_range());
    assert_eq!(lent.finish(0), (3, stored(1)));
}

// Elsewhere.

/// Whole calls in one bucket, with the other bucket's head, a free node and a
/// neighbour's record out of range.
#[test]
fn calls_that_do_not_meet_the_damage() {
    let mut lent = Lent::with_stored(shape(2, 4, 2, 10), &[5]);
    *lent.head(1) = u64::MAX;
    for word in 0..7 {
        *lent.node_word(3, word) = u64::MAX;
    }
    assert_eq!(lent.narrow(0, Call::Put(arrival(3)), 99), stored(2));
    lent.workers[1] = GARBAGE_RECORD;
    for (ticket, answer) in [(3, took(3)), (4, took(5))] {
        assert_eq!(take(&mut lent, 0), begun(ticket));
        assert_eq!(lent.narrow(0, Call::Turn, 99), answer);
    }
    // The next one goes on to the bad head: 8, 9, 12, 9.
    assert_eq!(take(&mut lent, 0), begun(5));
    for stage in [9, 12, 9, 10] {
        assert_eq!(turn(&mut lent, 0), ON);
        assert_eq!(lent.stage(0), stage);
    }
    assert_eq!(lent.current(), (1, 2));
    assert_eq!(lent.workers[0].right, u64::MAX / 2);
    assert_eq!(turn(&mut lent, 0), refused(3));
}

/// After the one turn that leaves the ranges (rule S18) narrow calls go on.
#[test]
fn the_one_leak_is_not_noticed() {
    let mut lent = Lent::open(shape(1, 2, 1, 10));
    *lent.head(0) = 0;
    *lent.node_word(0, field::LINK) = 5;
    *lent.node_word(1, field::RECLAMATION) = 1;
    *lent.node_word(1, field::DISTANCE) = 1;
    lent.store[STARTED] = 8;
    lent.workers[0] = Worker {
        own: 1,
        link_seen: 5,
        ..record_at(3)
    };
    assert_eq!(lent.narrow(0, Call::Turn, 0), ON);
    assert_eq!(*lent.node_word(0, field::RECLAMATION), 10);
    for stage in [5, 6, 7] {
        assert_eq!(turn(&mut lent, 0), ON);
        assert_eq!(lent.stage(0), stage);
    }
    assert_eq!(turn(&mut lent, 0), stored(0));
}
