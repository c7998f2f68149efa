//! Arrivals of one sample: the lower order is taken first, and of equal orders the lower
//! ticket.

mod common;

use common::runs::{halls_with_equal_times, interleavings, put_of, runs_in, taken_list, MIDDLE};
use common::text;
use hall::{report, trace, Arguments, Call, Event, Interleaving, Job, Trace};
use wubraken::{Shape, Taken};

/// With nodes enough.
fn job(order: u32, workers: u64, interleaving: Interleaving) -> Job {
    let arguments = Arguments {
        interleaving,
        workers,
        nodes: Shape::MAX_NODES,
        order,
        ..Arguments::default()
    };
    arguments.job()
}

/// The lines of the list that begin with a time, without the spaces in front.
fn lines_of(text: &str, time: u32) -> Vec<&str> {
    let (list, _) = text.split_once("turns: ").unwrap();
    let lines = list.lines().map(str::trim_start);
    lines
        .filter(|line| line.starts_with(&format!("{time} ")))
        .collect()
}

/// A listener on the floor: what the floor reflects has gone as far as the direct sound. 10
/// metres along, 1.5 across, 1.5 down: 10.223 metres, 1,430.6 samples. (Here it is so by whatever
/// key: all others are reflected from the direct sound, once that is taken. So the key is tried
/// on orders 1 and 2, 2 and 3, below.)
#[test]
fn the_direct_sound_before_that_of_the_floor() {
    for interleaving in interleavings(3) {
        let mut job = job(2, 1, interleaving);
        job.hall.listener[2] = 0;
        let text = report(job.shape, &trace(&job).unwrap());
        let expected = [
            "1431  16912     0       10    167772",
            "1431  16911     1       10    167772",
        ];
        assert_eq!(lines_of(&text, 1_431), expected);
    }
}

/// From 20 metres, 2,799 samples, come front and rear wall, and ceiling and floor together.
const AT_20_METRES: [&str; 4] = [
    "2799  17936     1       20     41943",
    "2799  15888     1       20     41943",
    "2799  16914     2       20     41943",
    "2799  16910     2       20     41943",
];

/// From 25 metres, 3,499 samples, come front or rear wall with a side wall, 20² + 15² = 25²,
/// and a side wall with ceiling and floor, 15² + 20². These last are reflected from what comes
/// from 18 metres, the others from what comes from 20: so order 3 is put before order 2.
///
/// The reflections of an arrival are put up and down first, then sideways, then forth and
/// back; of two ways that with the greater path first.
#[test]
fn one_worker_by_hand() {
    for interleaving in interleavings(3) {
        let mut job = job(3, 1, interleaving);
        job.hall = MIDDLE;
        let trace = trace(&job).unwrap();
        let text = report(job.shape, &trace);
        assert_eq!(lines_of(&text, 2_799), AT_20_METRES);
        let expected = [
            "3499  17968     2       25     26843",
            "3499  17904     2       25     26843",
            "3499  15920     2       25     26843",
            "3499  15856     2       25     26843",
            "3499  16946     3       25     26843",
            "3499  16942     3       25     26843",
            "3499  16882     3       25     26843",
            "3499  16878     3       25     26843",
        ];
        assert_eq!(lines_of(&text, 3_499), expected);
        assert!(put_of(&trace, 16_878).end < put_of(&trace, 17_968).start);
        assert!(text.contains("\ntaken after a later one (*): 0; "));
    }
}

/// While one worker puts the first reflections, the other takes that of the ceiling, the first
/// to be put, and puts what the floor reflects of it: before that of the front wall is put.
#[test]
fn a_second_reflection_that_is_put_before_a_first() {
    let mut job = job(3, 2, Interleaving::Dealt);
    job.hall = MIDDLE;
    let trace = trace(&job).unwrap();
    let [by_wall, by_floor] = [17_936, 16_914].map(|path| put_of(&trace, path));
    assert!(by_floor.end < by_wall.start);
    assert_eq!(lines_of(&report(job.shape, &trace), 2_799), AT_20_METRES);
}

/// Two that are stored before either is taken, by takes that do not overlap.
#[test]
fn what_is_stored_is_taken_by_order_then_by_ticket() {
    let (mut by_order, mut by_ticket) = (0, 0);
    for trace in halls_with_equal_times().into_iter().flat_map(runs_in) {
        let list = taken_list(&trace);
        for (place, x) in list.iter().enumerate() {
            for y in &list[place + 1..] {
                let are_stored = x.put.end.max(y.put.end) < x.take.start;
                let is_after = x.take.end < y.take.start;
                if x.arrival.time == y.arrival.time && are_stored && is_after {
                    assert!(x.key() < y.key(), "{:?}, {:?}", x.arrival, y.arrival);
                    by_ticket += usize::from(x.arrival.order == y.arrival.order);
                    by_order += usize::from(x.put.ticket > y.put.ticket);
                }
            }
        }
    }
    println!("by order, against the tickets: {by_order}, by ticket: {by_ticket}");
    assert!(by_order > 100 && by_ticket > 100, "{by_order}, {by_ticket}");
}

/// The hall of the program has such arrivals, too, from order 4 on.
#[test]
fn one_worker_prints_them_in_their_order() {
    for order in ["4", "6", "10", "15"] {
        let text = text(&["--workers", "1", "--nodes", "4096", "--order", order]);
        let (list, account) = text.split_once("turns: ").unwrap();
        let keys: Vec<[u32; 2]> = list.lines().skip(1).map(time_and_order).collect();
        let is_tie = |pair: &&[[u32; 2]]| pair[0][0] == pair[1][0] && pair[0][1] < pair[1][1];
        assert!(keys.windows(2).any(|pair| is_tie(&pair)), "order {order}");
        assert!(
            keys.windows(2).all(|pair| pair[0] <= pair[1]),
            "order {order}"
        );
        assert!(account.contains("\ntaken after a later one (*): 0; "));
    }
}

fn time_and_order(line: &str) -> [u32; 2] {
    let words: Vec<&str> = line.split_whitespace().collect();
    [0, 2].map(|place: usize| words[place].parse().unwrap())
}

/// A star is at what stands behind one of a higher time, or of its time and a higher order;
/// tickets are not in the list.
#[test]
fn stars_by_hand() {
    let list = [
        (10, 1, ""),
        (10, 1, ""),
        (10, 0, " *"),
        (10, 1, ""),
        (11, 0, ""),
        (10, 2, " *"),
        (11, 2, ""),
        (11, 1, " *"),
        (12, 0, ""),
    ];
    let calls = list.map(|(time, order, _)| took(time, order));
    let trace = Trace {
        calls: calls.to_vec(),
        row: vec![1],
        slot_length: 48,
        ..Trace::default()
    };
    let text = report(job(0, 1, Interleaving::Dealt).shape, &trace);
    let expected = list.map(|(time, order, star)| {
        format!("     {time}      7     {order}        3   1864135{star}")
    });
    let printed: Vec<&str> = text.lines().skip(1).take(list.len()).collect();
    assert_eq!(printed, expected);
    assert!(text.contains("\ntaken after a later one (*): 3; "));
}

fn took(time: u32, order: u32) -> Call {
    let taken = Taken {
        time,
        path: 7,
        order,
        distance: 3,
        energy: 1_864_135,
    };
    Call {
        worker: 0,
        ticket: 1,
        start: 1,
        end: 2,
        event: Event::Took(taken),
    }
}
