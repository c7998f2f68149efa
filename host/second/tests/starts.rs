//! What an opening and a start write, and which node a put gets.

mod common;

use common::*;
use schedule::script::shape;
use second::layout::{field, node_at, LAST_ALLOCATED, NODE_WORDS, STARTED};
use second::{word, Response, Worker};

#[test]
fn opening_never_reads_the_old_contents() {
    let mut lent = Lent::garbage(shape(2, 3, 2, 10));
    assert_eq!(lent.reopen(), Ok(Response::Open));
    let mut expected = vec![0, 0, 2, 6, 6];
    expected.extend([0; 24]);
    expected.extend([GARBAGE; SPARE_WORDS]);
    assert_eq!(lent.store, expected);
    assert_eq!(lent.workers[..2], [Worker::default(); 2]);
    assert_eq!(lent.workers[2..], [GARBAGE_RECORD; SPARE_RECORDS]);
}

#[test]
fn starts_touch_only_what_they_name() {
    let mut lent = Lent::open(shape(2, 4, 2, 10));
    let seen = Worker {
        stage: 0,
        kind: 1,
        own: 3,
        bucket: 1,
        left: 5,
        right: 4,
        link_seen: 9,
        current_seen: word::current(1, 77),
        ticket: 66,
    };
    lent.workers[0] = seen;
    lent.workers[1] = Worker { kind: 0, ..seen };
    *lent.node_word(0, field::LINK) = 9;
    *lent.node_word(0, field::EPOCH) = 55;

    assert_eq!(lent.put(0, 5), begun(1));
    let put = Worker {
        stage: 1,
        kind: 0,
        own: 0,
        bucket: 0,
        ticket: 1,
        ..seen
    };
    assert_eq!(lent.workers[0], put);
    let node = node_at(2, 0);
    let words = [9, 5, 1, 7, 1, 3, 55, 1];
    assert_eq!(lent.store[node..node + NODE_WORDS], words);

    assert_eq!(lent.take(1), begun(2));
    let take = Worker {
        stage: 8,
        kind: 1,
        ticket: 2,
        ..seen
    };
    assert_eq!(lent.workers[1], take);
    assert_eq!(lent.store[STARTED], 2);
}

#[test]
fn nodes_are_tried_after_the_last_one_and_round() {
    for (last, live, expected) in [
        (3, &[][..], 0),
        (0, &[][..], 1),
        (1, &[2, 3][..], 0),
        (1, &[0, 2, 3][..], 1),
        (3, &[0, 1][..], 2),
    ] {
        let mut lent = Lent::open(shape(2, 4, 2, 10));
        lent.store[LAST_ALLOCATED] = last;
        for &node in live {
            *lent.node_word(node, field::RECLAMATION) = 1;
            *lent.node_word(node, field::DISTANCE) = 1;
        }
        assert_eq!(lent.put(0, 5), begun(1));
        assert_eq!(
            (lent.store[LAST_ALLOCATED], lent.workers[0].own),
            (expected, expected)
        );
    }
}

#[test]
fn a_ticket_equal_to_the_unlinking_keeps_the_node_resting() {
    for (ticket, answer) in [(6, refused(12)), (7, refused(12)), (8, begun(10))] {
        let mut lent = Lent::open(shape(2, 1, 2, 10));
        lent.store[STARTED] = 9;
        *lent.node_word(0, field::DISTANCE) = 1;
        *lent.node_word(0, field::RECLAMATION) = 2 + 7;
        lent.workers[1] = Worker {
            ticket,
            ..record_at(8)
        };
        assert_eq!(lent.clone().put(0, 5), answer);
        // An idle record's ticket does not count.
        lent.workers[1].stage = 0;
        assert_eq!(lent.put(0, 5), begun(10));
    }
}
