//! The last bucket takes the tail: its borders, and calls far behind the others.
//! Every expected bucket, line and number of turns is worked out by hand.

mod common;

use common::noted::Noted;
use common::*;
use schedule::script::{put, put_arrival, shape, took};
use schedule::Script;
use second::layout::field;
use second::{Arrival, Program, Reclamation, Record, Shape, Worker};

/// The last time there is.
const LAST: u32 = 4_294_967_295;

/// Runs a script through the entry points and the program, which must print its lines,
/// and its calls must have an order.
fn play(script: &Script) -> Lent {
    let noted = Noted::play(script);
    assert!(noted.is_a_queue());
    assert_eq!(schedule::lines(&script.bytes()[..]), script.output());
    noted.lent
}

// Borders.

/// The bucket in which a put on a fresh pool begins, by every kind of start.
fn begins_in(shape: Shape, time: u32) -> u64 {
    let mut lent = Lent::open(shape);
    assert_eq!(lent.put(0, time), begun(1));
    assert_eq!(*lent.node_word(0, field::TIME), u64::from(time));

    let mut narrow = Lent::open(shape);
    let call = Call::Put(arrival(time));
    assert_eq!(narrow.narrow(0, call, 0), begun(1));
    assert_eq!(narrow, lent);

    let mut program = Program::new();
    program.apply(Record::Open(shape)).unwrap();
    assert_eq!(program.apply(put(0, time)), begun(1));
    assert_eq!(program.workers()[0], lent.workers[0]);

    let bucket = lent.workers[0].bucket;
    let expected = Worker {
        stage: 1,
        bucket,
        ticket: 1,
        ..Worker::default()
    };
    assert_eq!(lent.workers[0], expected);
    bucket
}

fn check_borders(buckets: u32, width: u32, expected: &[(u32, u64)]) {
    for &(time, bucket) in expected {
        let shape = shape(2, 4, buckets, width);
        assert_eq!(begins_in(shape, time), bucket, "{time} of {shape:?}");
    }
}

#[test]
fn borders_of_the_last_bucket() {
    check_borders(
        2,
        10,
        &[
            (0, 0),
            (9, 0),
            (10, 1),
            (19, 1),
            (20, 1),
            (21, 1),
            (LAST, 1),
        ],
    );
    check_borders(
        3,
        7,
        &[
            (6, 0),
            (7, 1),
            (13, 1),
            (14, 2),
            (20, 2),
            (21, 2),
            (28, 2),
            (LAST, 2),
        ],
    );
}

#[test]
fn one_bucket_has_every_time() {
    for width in [1, 10, 65_535] {
        let times = [
            0,
            1,
            2,
            9,
            10,
            11,
            65_534,
            65_535,
            65_536,
            2_147_483_648,
            LAST,
        ];
        check_borders(1, width, &times.map(|time| (time, 0)));
    }
}

/// 255 × 65,535 is 16,711,425 and 256 × 65,535 is 16,776,960. The last time is
/// 65,537 × 65,535, and 4,294,901,760 is 65,536 × 65,535: no high bit may be lost.
#[test]
fn borders_of_256_wide_buckets() {
    check_borders(
        256,
        65_535,
        &[
            (65_534, 0),
            (65_535, 1),
            (16_711_424, 254),
            (16_711_425, 255),
            (16_776_959, 255),
            (16_776_960, 255),
            (16_842_494, 255),
            (16_842_495, 255),
            (4_294_901_759, 255),
            (4_294_901_760, 255),
            (LAST, 255),
        ],
    );
}

#[test]
fn borders_at_width_1() {
    check_borders(2, 1, &[(0, 0), (1, 1), (2, 1), (3, 1), (4, 1), (LAST, 1)]);
    check_borders(
        256,
        1,
        &[
            (0, 0),
            (1, 1),
            (254, 254),
            (255, 255),
            (256, 255),
            (257, 255),
            (511, 255),
            (512, 255),
            (65_536, 255),
            (LAST, 255),
        ],
    );
}

// Calls one after another.

/// As 15 before: 4 turns put 20 into bucket 1. A take passes bucket 0 by 8, 9 and 12,
/// and has 9, 10, 11, 1, 2 and 3 in bucket 1.
#[test]
fn a_fresh_put_in_the_tail_and_its_take() {
    for time in [20, 21, 1_000, LAST] {
        let stored = Script::open(2, 4, 2, 10).stored(0, time, 4);
        let mut lent = play(&stored);
        assert_eq!((lent.times(0), lent.times(1)), (vec![], vec![time.into()]));
        assert_eq!(lent.current(), (0, 0));
        // Then 8, 9 and 13.
        let lent = play(&stored.taken(1, 9, &took(time)).taken(0, 3, "empty"));
        assert_eq!(lent.current(), (1, 0));
    }
}

/// Refusals of a put in the tail: the time has no part in them.
#[test]
fn refusals_in_the_tail() {
    let without_distance = |time| Arrival {
        distance: 0,
        ..arrival(time)
    };
    let script = Script::open(2, 1, 2, 10)
        .refused(put(2, LAST), 4)
        .refused(put_arrival(0, without_distance(20)), 5)
        .refused(put_arrival(0, without_distance(LAST)), 5)
        .put(0, 20)
        .refused(put_arrival(0, without_distance(LAST)), 5)
        .refused(put(0, 20), 9)
        .refused(put(0, LAST), 9)
        .refused(put(1, LAST), 12)
        .end(0, 4, "stored 1")
        .refused(put(0, 20), 12)
        .refused(put(1, LAST), 12)
        .taken(1, 9, &took(20))
        // Current is (1, 0) now, so that 7 comes after 6.
        .stored(0, LAST, 5);
    assert_eq!(play(&script).current(), (1, 1));
}

/// One bucket of width 1, where all but time 0 is tail; two of the last time.
#[test]
fn one_bucket() {
    let of = |time, path| put_arrival(0, at(time, path));
    let script = Script::open(1, 4, 1, 1)
        .begin(of(LAST, 1))
        .end(0, 5, "stored 1")
        // Each passes or stops at one node: 1, 2, 4, 5, 6, 7.
        .begin(of(LAST, 2))
        .end(0, 6, "stored 2")
        .begin(of(1, 3))
        .end(0, 6, "stored 3")
        .begin(of(0, 4))
        .end(0, 6, "stored 4")
        .refused(of(LAST, 5), 12);
    let mut lent = play(&script);
    let last = u64::from(LAST);
    assert_eq!(
        lent.keys(0),
        [(0, 1, 4), (1, 1, 3), (last, 1, 1), (last, 1, 2)]
    );
    assert_eq!(lent.current(), (0, 4));

    // A search stops at the next node, if there is one: 8, 9, 10, 11, 1, 2, 3, 2.
    let script = script
        .taken(0, 8, "took 0 4 1 1864135")
        .taken(0, 8, "took 1 3 1 1864135")
        .taken(0, 8, "took 4294967295 1 1 1864135")
        .taken(0, 7, "took 4294967295 2 1 1864135")
        .taken(0, 3, "empty");
    assert_eq!(play(&script).current(), (0, 4));
}

/// Two buckets of width 1: the tail begins at 2.
#[test]
fn width_1() {
    let script = Script::open(1, 4, 2, 1)
        .stored(0, 7, 4)
        // 1, 2, 4, 5, 6: it stops at 7.
        .stored(0, 1, 5)
        // 1, 4, 5, 6, 7: current is already in bucket 0, but not lower.
        .stored(0, 0, 5);
    let mut lent = play(&script);
    assert_eq!((lent.times(0), lent.times(1)), (vec![0], vec![1, 7]));
    assert_eq!(lent.current(), (0, 1));

    let script = script
        .taken(0, 7, &took(0))
        // 8, 9, 12; 9, 10, 11, 1, 2, 3, and 2 at the node of 7.
        .taken(0, 10, &took(1))
        .taken(0, 7, &took(7))
        .taken(0, 3, "empty");
    assert_eq!(play(&script).current(), (1, 1));
}

/// A take passes 255 empty buckets, each by 9 and 12: 8, 510 turns, and 9, 10, 11, 1,
/// 2 and 3. Later puts find current in the last bucket.
#[test]
fn wide_buckets_256_of_them() {
    let script = Script::open(1, 4, 256, 65_535).stored(0, LAST, 4).taken(
        0,
        517,
        "took 4294967295 7 1 1864135",
    );
    assert_eq!(play(&script).current(), (255, 0));

    let script = script.stored(0, 16_711_425, 5).stored(0, 16_776_960, 6);
    let mut lent = play(&script);
    assert_eq!(lent.times(255), [16_711_425, 16_776_960]);
    assert_eq!(lent.current(), (255, 2));

    // The last time before them has a bucket of its own.
    let script = script.stored(0, 16_711_424, 5);
    let mut lent = play(&script);
    assert_eq!(lent.times(254), [16_711_424]);
    assert_eq!(lent.current(), (254, 3));

    let script = script
        .taken(0, 7, &took(16_711_424))
        // 8, 9, 12; 9, 10, 11, 1, 2, 3, and 2 at the second node.
        .taken(0, 10, &took(16_711_425))
        .taken(0, 7, &took(16_776_960))
        .taken(0, 3, "empty");
    assert_eq!(play(&script).current(), (255, 3));
}

/// Times are compared whole.
#[test]
fn far_times_in_their_order() {
    let put = [
        2_147_483_648,
        LAST,
        65_536,
        2_147_483_647,
        0,
        65_535,
        16_777_216,
    ];
    let tail = [
        65_535,
        65_536,
        16_777_216,
        2_147_483_647,
        2_147_483_648,
        4_294_967_295,
    ];
    for (buckets, width) in [(1, 1), (2, 1), (2, 10), (2, 65_535), (256, 1)] {
        let mut lent = Lent::with_stored(shape(1, 8, buckets, width), &put);
        let last = buckets as usize - 1;
        if buckets == 1 {
            assert_eq!(lent.times(0)[..1], [0]);
            assert_eq!(lent.times(0)[1..], tail);
        } else {
            assert_eq!((lent.times(0), lent.times(last)), (vec![0], tail.to_vec()));
        }
        assert_eq!(lent.take_whole(0), common::took(0));
        for time in tail {
            assert_eq!(lent.take_whole(0), common::took(time));
        }
        assert_eq!(lent.take_whole(0), EMPTY);
    }
}

/// The bucket is worked out at the start; afterwards the record's is the one.
#[test]
fn turns_go_by_the_bucket_in_the_record() {
    let mut lent = Lent::open(shape(2, 4, 2, 10));
    lent.put(0, 500).unwrap();
    lent.workers[0].bucket = 0;
    assert_eq!(lent.finish(0), (5, stored(1)));
    assert_eq!((lent.times(0), lent.times(1)), (vec![500], vec![]));
    assert_eq!(lent.current(), (0, 1));
}

// Calls between one another.

/// The arrival with this path; distance 3 as in all scripts.
fn at(time: u32, path: u32) -> Arrival {
    Arrival {
        path,
        ..arrival(time)
    }
}

/// Two takers at 11 on the only node, in the tail; worker 0 has marked it, and worker 1
/// has walked on to the end of the last bucket, where 13 comes and no 12.
fn lost_in_the_tail() -> Script {
    Script::open(3, 4, 2, 10)
        .stored(0, 500, 4)
        // 8, 9, 12, 9, 10.
        .take(0)
        .turns(0, 5)
        // 8, 9, 10.
        .take(1)
        .turns(1, 3)
        .turns(0, 1)
        .turns(1, 2)
}

#[test]
fn the_loser_finds_nothing_more() {
    let lent = play(&lost_in_the_tail());
    assert_eq!((lent.stage(0), lent.workers[0].own), (1, 0));
    let loser = lent.workers[1];
    assert_eq!((loser.stage, loser.bucket, loser.right), (13, 1, 4));
    let script = lost_in_the_tail()
        .end(1, 1, "empty")
        .end(0, 3, &took(500))
        .taken(2, 3, "empty");
    assert_eq!(play(&script).current(), (1, 0));
}

/// A put in the tail gives its bucket a new epoch, though current is there already: the
/// loser is not empty-handed.
#[test]
fn the_loser_reads_current_again() {
    let script = lost_in_the_tail()
        // 1, 2, 3 unlinks the marked node, 4, 5, 6, 7.
        .stored(2, 600, 7);
    let mut lent = play(&script);
    assert_eq!((lent.times(1), lent.current()), (vec![600], (1, 1)));
    // 13, 8, 9, 10, 11, 1, 2, 3; worker 0 finds its node gone.
    let script = script.end(1, 8, &took(600)).end(0, 1, &took(500));
    assert_eq!(play(&script).current(), (1, 1));
}

/// Worker 0 is about to advance from (0, 0); worker 1 walks to the last bucket; a put in
/// the tail makes it (1, 1). The stale advance fails.
#[test]
fn a_stale_advance_to_the_tail() {
    let script = Script::open(3, 4, 2, 10)
        .take(0)
        .turns(0, 2)
        .taken(1, 5, "empty")
        .stored(2, 300, 5);
    let lent = play(&script);
    assert_eq!((lent.stage(0), lent.current()), (12, (1, 1)));
    let lent = play(&script.clone().turns(0, 1));
    assert_eq!((lent.stage(0), lent.current()), (8, (1, 1)));
    // 12, 8, 9, 10, 11, 1, 2, 3.
    play(&script.end(0, 8, &took(300)));
}

/// The line of a take.
fn took_path(time: u32, path: u32) -> String {
    format!("took {time} {path} 1 1864135")
}

/// Three buckets of 10, the tail from 30 on. Paths are 100 + the ticket. Prefixes of
/// the history are played for themselves, to look at the memory.
#[test]
fn a_whole_history() {
    const FAR: u32 = 1_000_000;
    let far = u64::from(FAR);
    let last = u64::from(LAST);

    // Nodes 0 and 1. The second passes the first.
    let script = Script::open(3, 6, 3, 10)
        .begin(put_arrival(0, at(FAR, 101)))
        .end(0, 4, "stored 1")
        .begin(put_arrival(1, at(LAST, 102)))
        .end(1, 5, "stored 2");
    let mut lent = play(&script);
    assert_eq!(lent.keys(2), [(far, 1, 1), (last, 1, 2)]);

    // Two more of that time. Ticket 3 is about to link its node 2 between the others
    // (1, 2, 2, 4); ticket 4 does so with node 3 (1, 2, 2, 4, 5, 6).
    let script = script
        .begin(put_arrival(1, at(FAR, 103)))
        .turns(1, 4)
        .begin(put_arrival(2, at(FAR, 104)))
        .end(2, 6, "stored 4");
    let mut lent = play(&script);
    assert_eq!(lent.stage(1), 5);
    assert_eq!(lent.keys(2), [(far, 1, 1), (far, 1, 4), (last, 1, 2)]);

    // 5 fails; 1, and 2 stops before ticket 4; 4, 5, 6.
    let script = script.turns(1, 1).end(1, 6, "stored 3");
    let mut lent = play(&script);
    assert_eq!(
        lent.keys(2),
        [(far, 1, 1), (far, 1, 3), (far, 1, 4), (last, 1, 2)]
    );
    assert_eq!(lent.current(), (0, 0));

    // Ticket 5 takes: 8, 9, 12, 9, 12, 9, 10, and is about to mark node 0.
    let script = script.take(0).turns(0, 7);
    let lent = play(&script);
    assert_eq!((lent.stage(0), lent.workers[0].right), (11, 0));
    assert_eq!(lent.current(), (2, 0));

    // Late, one in bucket 1, in node 4: 1, 4, 5, 6, 7.
    let script = script
        .begin(put_arrival(1, at(15, 106)))
        .end(1, 5, "stored 6");
    let mut lent = play(&script);
    assert_eq!((lent.times(1), lent.current()), (vec![15], (1, 1)));

    // Ticket 5 goes on: 11, 1, 2, 3, 2. It stands before the put of 15, which the next
    // take finds: 8, 9, 10, 11, 1, 2, 3.
    let script = script
        .end(0, 5, &took_path(FAR, 101))
        .taken(2, 7, &took_path(15, 106));
    let mut lent = play(&script);
    assert_eq!(lent.keys(2), [(far, 1, 3), (far, 1, 4), (last, 1, 2)]);
    assert_eq!(lent.current(), (1, 1));
    for (node, started) in [(0, 6), (4, 7)] {
        let word = *lent.node_word(node, field::RECLAMATION);
        assert_eq!(Reclamation::from_word(word), Reclamation::Retired(started));
    }

    // Tickets 8 and 9 both come to ticket 3's node 2, by 8, 9, 12, 9, 10 and by 8, 9, 10;
    // 9 marks it.
    let script = script.take(0).turns(0, 5).take(1).turns(1, 3);
    let lent = play(&script);
    for worker in [0, 1] {
        assert_eq!((lent.stage(worker), lent.workers[worker].right), (11, 2));
    }
    assert_eq!(lent.current(), (2, 1));

    // 8 walks on to ticket 4: 11, 10, 10, 11; 1, 2, 3 and 2, 3 unlink both, and 2 is at
    // the last one. 9 has only 1 and 2 left.
    let script =
        script
            .turns(1, 1)
            .end(0, 10, &took_path(FAR, 104))
            .end(1, 2, &took_path(FAR, 103));
    let mut lent = play(&script);
    assert_eq!(lent.keys(2), [(last, 1, 2)]);

    // Ticket 10 reads (2, 1) and pauses. 30, which is just past three widths, gets node 5
    // and epoch 1; 20, where the last bucket begins, node 0 and epoch 2.
    // Both: 1, 2, 4, 5, 6, 7.
    let script = script
        .take(0)
        .turns(0, 1)
        .begin(put_arrival(1, at(30, 111)))
        .end(1, 6, "stored 11")
        .begin(put_arrival(2, at(20, 112)))
        .end(2, 6, "stored 12");
    let mut lent = play(&script);
    assert_eq!(lent.keys(2), [(20, 1, 12), (30, 1, 11), (last, 1, 2)]);
    assert_eq!((lent.workers[1].own, lent.workers[2].own), (5, 0));
    let epochs = [0, 5, 1].map(|node| *lent.node_word(node, field::EPOCH));
    assert_eq!(epochs, [2, 1, 0]);
    assert_eq!(lent.current(), (2, 3));

    // 9, 10 meets epoch 2 after 1; 8, 9, 10, 11, 1, 2, 3, 2.
    let script = script.turns(0, 2);
    assert_eq!(play(&script).stage(0), 8);
    let script = script
        .end(0, 8, &took_path(20, 112))
        .taken(0, 8, &took_path(30, 111))
        .taken(1, 7, &took_path(LAST, 102))
        .taken(2, 3, "empty");
    let mut lent = play(&script);
    for bucket in 0..3 {
        assert_eq!(lent.keys(bucket), []);
    }
    assert_eq!(lent.current(), (2, 3));

    let output = program::run(&script.bytes());
    assert!(output.status.success());
    assert_eq!(String::from_utf8(output.stdout).unwrap(), script.output());
}
