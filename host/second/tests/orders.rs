//! The four orders that catch an engine out. Each is run by the rules, and again
//! with the mistake made by hand in the lent memory, to show that the order tells
//! the two apart. Whether the answers are those of a plain queue is decided by a
//! search over all orders.

mod common;

use common::noted::Noted;
use common::*;
use schedule::orders;
use schedule::script::{put, turn};
use second::layout::{field, CURRENT};
use second::{word, Response};

fn paused_before_15() -> Noted {
    let mut pool = Noted::play(&orders::paused_before_15());
    assert_eq!(pool.lent.stage(0), 10);
    assert_eq!(pool.lent.workers[0].current_seen, word::current(0, 2));
    assert_eq!(pool.lent.times(0), [15, 20]);
    pool
}

#[test]
fn a_node_of_a_higher_epoch_sends_the_taker_back() {
    let mut pool = paused_before_15();
    assert_eq!(pool.apply(turn(0)), ON);
    assert_eq!(pool.lent.stage(0), 8);
    assert_eq!(pool.apply(turn(0)), ON);
    assert_eq!(pool.lent.workers[0].current_seen, word::current(0, 4));
    assert!(Noted::play(&orders::sent_back()).is_a_queue());
}

/// The mistake: walk past 15 to its successor. 20 comes out before 15 and 15
/// only afterwards, though it was there all the time.
#[test]
fn passing_over_a_node_of_a_higher_epoch() {
    let mut pool = paused_before_15();
    assert_eq!(pool.apply(turn(0)), ON);
    let record = &mut pool.lent.workers[0];
    record.stage = 10;
    record.right = word::successor(record.link_seen);
    assert_eq!(pool.finish(0), took(20));
    assert_eq!(pool.take_whole(1), took(15));
    assert!(!pool.is_a_queue());
}

fn stood_on_by_a_put() -> Noted {
    let pool = Noted::play(&orders::stood_on_by_a_put());
    assert_eq!(pool.lent.stage(1), 5);
    assert_eq!(pool.lent.workers[1].left, 1); // One head, then node 0's link.
    pool
}

#[test]
fn a_node_stood_on_rests() {
    let mut pool = stood_on_by_a_put();
    assert_eq!(pool.apply(put(2, 30)), refused(12));
    assert_eq!(pool.apply(turn(1)), ON);
    assert_eq!(pool.lent.stage(1), 1); // The link is marked: search again.
    let pool = Noted::play(&orders::stood_on_rests());
    assert_eq!(pool.lent.workers[2].own, 0);
    assert!(pool.is_a_queue());
}

/// The mistake: node 0 is free once its taker has ended. 30 gets it, its link is
/// again the one that the paused put saw, and 20 is linked behind 30.
#[test]
fn freeing_a_node_when_its_taker_ends() {
    let mut pool = stood_on_by_a_put();
    *pool.lent.node_word(0, field::RECLAMATION) = 0;
    pool.store_whole(2, 30);
    assert_eq!(pool.apply(turn(1)), ON);
    assert_eq!(pool.lent.stage(1), 6);
    assert_eq!(pool.finish(1), stored(2));
    assert_eq!(pool.lent.times(0), [30, 20]);
    assert_eq!(pool.take_whole(0), took(30));
    assert!(!pool.is_a_queue());
}

fn marked_and_paused() -> Noted {
    let mut pool = Noted::play(&orders::marked_and_paused());
    assert_eq!(pool.lent.stage(0), 1);
    assert!(word::is_marked(*pool.lent.node_word(0, field::LINK)));
    pool
}

#[test]
fn a_marked_node_stays_in_use() {
    assert!(Noted::play(&orders::marked_stays_in_use()).is_a_queue());
}

/// The mistake: node 0 is free once it is marked. 30 overwrites 10 before the
/// taker reads it: 10 is lost and 30 comes out twice.
#[test]
fn freeing_a_node_when_it_is_marked() {
    let mut pool = marked_and_paused();
    *pool.lent.node_word(0, field::RECLAMATION) = 0;
    pool.store_whole(1, 30);
    assert_eq!(pool.finish(0), took(30));
    assert_eq!(pool.take_whole(1), took(30));
    assert!(!pool.is_a_queue());
}

fn linked_below_current() -> Noted {
    let mut pool = Noted::play(&orders::linked_below_current());
    assert_eq!(pool.lent.stage(1), 6);
    assert_eq!(pool.lent.times(0), [5]);
    pool
}

#[test]
fn stored_is_answered_after_current_is_lowered() {
    let pool = Noted::play(&orders::stored_after_lowering());
    assert_eq!(pool.lent.current(), (0, 1));
    assert!(pool.is_a_queue());
}

/// The mistake: stored is answered at the link. The take after it starts in
/// bucket 1 and answers empty.
#[test]
fn answering_stored_at_the_link() {
    let mut pool = linked_below_current();
    pool.lent.workers[1].stage = 0;
    pool.note(1, Response::Stored(2));
    assert_eq!(pool.take_whole(0), EMPTY);
    assert_eq!(pool.lent.times(0), [5]);
    assert!(!pool.is_a_queue());
}

fn stale_advance() -> Noted {
    let pool = Noted::play(&orders::stale_advance());
    assert_eq!(pool.lent.stage(0), 12);
    assert_eq!(pool.lent.current(), (0, 1));
    pool
}

#[test]
fn a_stale_advance_fails() {
    let mut pool = stale_advance();
    assert_eq!(pool.apply(turn(0)), ON);
    assert_eq!(pool.lent.stage(0), 8);
    assert_eq!(pool.lent.current(), (0, 1));
    assert!(Noted::play(&orders::stale_advance_fails()).is_a_queue());
}

/// The mistake: current goes back to bucket 0 in the old epoch. The stale swap
/// finds what it saw, and 5 is behind current: the next take answers empty.
#[test]
fn lowering_current_without_a_new_epoch() {
    let mut pool = stale_advance();
    pool.lent.store[CURRENT] = word::current(0, 0);
    assert_eq!(pool.apply(turn(0)), ON);
    assert_eq!(pool.lent.stage(0), 9);
    assert_eq!(pool.lent.current(), (1, 0));
    assert_eq!(pool.finish(0), EMPTY);
    assert_eq!(pool.take_whole(1), EMPTY);
    assert_eq!(pool.lent.times(0), [5]);
    assert!(!pool.is_a_queue());
}
