//! What the workers take, under many orders of turns.

mod common;

use std::collections::HashMap;
use std::iter::successors;

use common::runs::{halls_with_equal_times, interleavings, put_of, run_in, runs_in, taken_list};
use common::runs::{Listed, MIDDLE};
use hall::{trace, Arguments, Call, Event, Hall, Image, Interleaving, Trace};
use order::{find_order, Answer, End, Kind};
use wubraken::{Arrival, Shape, Taken};

fn run(arguments: Arguments) -> Trace {
    trace(&arguments.job()).unwrap()
}

fn runs() -> Vec<Trace> {
    runs_in(Arguments::default().job().hall)
}

/// In halls with arrivals of equal time, too.
fn all_runs() -> impl Iterator<Item = Trace> {
    let others = halls_with_equal_times().into_iter().flat_map(runs_in);
    runs().into_iter().chain(others)
}

fn sorted<A: Into<Arrival>>(arrivals: Vec<A>) -> Vec<Arrival> {
    let mut arrivals: Vec<Arrival> = arrivals.into_iter().map(A::into).collect();
    arrivals.sort_unstable_by_key(|arrival| arrival.path);
    arrivals
}

/// The arrivals of all images up to an order, by their paths.
fn arrivals(hall: Hall, order: u32) -> Vec<Arrival> {
    let images = (0..1 << 15).map(Image::from_path);
    let images = images.filter(|image| image.order() <= order);
    images.map(|image| hall.arrival(image)).collect()
}

/// Whatever the order of turns and the span, it is the same hall: every image up to the
/// order, 1, 6, 18 and 38 of them, and none is too far or too late.
#[test]
fn each_image_is_put_and_taken_exactly_once() {
    let expected = arrivals(Arguments::default().job().hall, 3);
    assert_eq!(expected.len(), 63);
    for trace in runs() {
        assert_eq!(sorted(trace.put()), expected);
        assert_eq!(sorted(trace.taken()), expected);
        assert_eq!(trace.too_far, 0);
    }
}

/// In a hall of 400 metres the images 3 and 4 times forward lie at 1,580 and 1,590 metres,
/// that 4 times backward at 1,610: with those mirrored sideways, 7 of the 129 up to order
/// 4. Two of them are reflected from one that is near enough, and tried.
#[test]
fn all_but_what_is_too_far_is_taken() {
    let mut job = Arguments::default().job();
    job.hall.size[0] = 40_000;
    job.order = 4;
    let mut expected = arrivals(job.hall, job.order);
    assert_eq!(expected.len(), 1 + 6 + 18 + 38 + 66);
    expected.retain(|arrival| arrival.distance <= Arrival::MAX_DISTANCE);
    assert_eq!(expected.len(), 129 - 7);
    let trace = trace(&job).unwrap();
    assert_eq!(sorted(trace.taken()), expected);
    assert_eq!(trace.too_far, 2);
}

#[test]
fn one_worker_takes_in_the_order_of_keys() {
    for (order, span) in [(0, 1), (2, 1), (2, 100), (6, 100), (6, 1_000)] {
        let trace = run(Arguments {
            workers: 1,
            nodes: Shape::MAX_NODES,
            order,
            span,
            ..Arguments::default()
        });
        assert_eq!(trace.no_node, 0);
        assert!(overtaken(&trace).is_empty());
    }
}

/// An order of turns in which a worker overtakes another's reflections, so that
/// the tests of several workers are about something.
#[test]
fn several_workers_may_take_out_of_order() {
    let times: Vec<u32> = run(Arguments::default())
        .taken()
        .iter()
        .map(|taken| taken.time)
        .collect();
    assert!(times.windows(2).any(|pair| pair[0] > pair[1]));
}

/// One worker has every turn, whoever deals them.
#[test]
fn one_worker_does_the_same_by_a_dealer() {
    for nodes in [1, 12] {
        let alone = |interleaving| {
            run(Arguments {
                interleaving,
                workers: 1,
                nodes,
                ..Arguments::default()
            })
        };
        let (dealt, other) = (alone(Interleaving::Dealt), alone(Interleaving::AtRandom(1)));
        assert_eq!((dealt.taken(), dealt.turns), (other.taken(), other.turns));
    }
}

/// One bucket: an empty pool is found empty in 3 turns, and a put has 5. All begin before
/// the first turn, and whoever has ended begins again at once, a moment each.
#[test]
fn a_dealer_goes_round() {
    let first_ends = |workers, count: usize| {
        let mut job = Arguments::default().job();
        (job.order, job.interleaving) = (0, Interleaving::Dealt);
        (job.shape.workers, job.shape.buckets) = (workers, 1);
        let calls = trace(&job).unwrap().calls;
        let ends = calls.iter().map(|call| (call.worker, call.start, call.end));
        ends.take(count).collect::<Vec<_>>()
    };
    // Turns of 0, 1, 0, 1, 0, 1 from moment 3 on, a start, and of 0, 1, 0.
    assert_eq!(first_ends(2, 2), [(1, 2, 8), (0, 1, 12)]);
    // Turns of 0, 1, 2 from moment 4 on, with a start behind each of those that end.
    assert_eq!(first_ends(3, 3), [(1, 2, 11), (2, 3, 13), (0, 1, 18)]);
}

/// A reflection that is too far begins no call, and its worker goes on with the next.
#[test]
fn what_is_too_far_does_not_end_a_dealt_run() {
    let mut job = Arguments::default().job();
    job.hall.size[0] = 40_000;
    (job.order, job.interleaving) = (4, Interleaving::Dealt);
    for workers in [1, 3, 64] {
        job.shape.workers = workers;
        let trace = trace(&job).unwrap();
        assert_eq!((trace.taken().len(), trace.too_far), (129 - 7, 2));
    }
}

/// An arrival x that was taken after a later one, y.
struct Overtaken<'a> {
    x: Listed<'a>,
    y: Listed<'a>,
}

/// All pairs. The report has a star at each x that has another time or order than its y.
fn overtaken(trace: &Trace) -> Vec<Overtaken<'_>> {
    let list = taken_list(trace);
    let mut overtaken = Vec::new();
    for (place, &x) in list.iter().enumerate() {
        let later = list[..place].iter().filter(|y| x.key() < y.key());
        overtaken.extend(later.map(|&y| Overtaken { x, y }));
    }
    overtaken
}

fn take_of(trace: &Trace, path: u32) -> &Call {
    let is_it = |call: &&Call| matches!(call.event, Event::Took(taken) if taken.path == path);
    trace.calls.iter().find(is_it).unwrap()
}

/// By promises 2 and 4: x's put had not ended when y's take started, or the takes
/// of both overlap, and x was in a worker's hand when y's take ended.
#[test]
fn why_an_arrival_is_taken_after_a_later_one() {
    let (mut put_late, mut in_hand) = (0, 0);
    for trace in all_runs() {
        for Overtaken { x, y } in overtaken(&trace) {
            let is_put_late = x.put.end > y.take.start;
            let is_in_hand = x.take.start < y.take.end && y.take.end < x.take.end;
            assert!(is_put_late || is_in_hand, "path {}", x.arrival.path);
            put_late += usize::from(!is_in_hand);
            in_hand += usize::from(!is_put_late);
        }
    }
    println!("only put late: {put_late}, only in a worker's hand: {in_hand}");
    assert!(put_late > 100 && in_hand > 100, "{put_late}, {in_hand}");
}

/// What the report says of a star: some time during y's take x, or what it was
/// reflected from, was in a worker's hand. Either it was not yet put, or its take
/// was in progress.
#[test]
fn it_or_what_it_was_reflected_from_was_in_a_workers_hand() {
    for trace in all_runs() {
        let reflected: HashMap<u32, u32> = trace.taken().iter().flat_map(reflections).collect();
        let parent = |path: &u32| reflected.get(path).copied();
        for Overtaken { x, y } in overtaken(&trace) {
            let overlaps = |from, to| from < y.take.end && y.take.start < to;
            let was_in_hand = |path: u32| {
                let made = parent(&path).map_or(0, |parent| take_of(&trace, parent).end);
                let take = take_of(&trace, path);
                overlaps(made, put_of(&trace, path).end) || overlaps(take.start, take.end)
            };
            let mut line = successors(Some(x.arrival.path), parent);
            assert!(line.any(was_in_hand), "path {}", x.arrival.path);
        }
    }
}

/// The paths of an arrival's reflections, each with its own.
fn reflections(taken: &Taken) -> Vec<(u32, u32)> {
    let images = Image::from_path(taken.path).reflections().into_iter();
    images.map(|image| (image.path(), taken.path)).collect()
}

#[test]
fn a_reflection_is_taken_after_its_parent() {
    for trace in runs() {
        let paths: Vec<u32> = trace.taken().iter().map(|taken| taken.path).collect();
        for (place, &path) in paths.iter().enumerate() {
            for reflection in Image::from_path(path).reflections() {
                let before = &paths[..place];
                assert!(!before.contains(&reflection.path()));
            }
        }
    }
}

#[test]
fn the_energy_is_of_the_distance() {
    for taken in run(Arguments::default()).taken() {
        assert_eq!(taken.energy, (1 << 24) / (taken.distance * taken.distance));
    }
}

/// The calls have an order in which a plain queue gives the same answers.
#[test]
fn there_is_a_sequential_order() {
    for hall in [Arguments::default().job().hall, MIDDLE] {
        for (workers, nodes) in [(1, 3), (1, 12), (2, 3), (2, 12), (3, 3), (3, 12)] {
            for interleaving in interleavings(20) {
                let arguments = Arguments {
                    interleaving,
                    workers,
                    nodes,
                    ..Arguments::default()
                };
                let trace = run_in(hall, arguments);
                let mut calls: Vec<_> = trace.calls.iter().map(seen_from_outside).collect();
                calls.sort_by_key(|call| call.start);
                assert!(find_order(&calls).is_some(), "{interleaving:?}");
            }
        }
    }
}

fn seen_from_outside(call: &Call) -> order::Call<Arrival> {
    let (kind, answer) = match call.event {
        Event::Put(arrival) => (
            Kind::Put {
                time: arrival.time,
                order: arrival.order,
                shown: arrival,
            },
            Answer::Stored(call.ticket),
        ),
        Event::Took(taken) => (Kind::Take, Answer::Took(taken.into())),
        Event::Empty => (Kind::Take, Answer::Empty),
    };
    let at = call.end;
    order::Call {
        worker: call.worker as usize,
        ticket: call.ticket,
        kind,
        start: call.start,
        end: Some(End { at, answer }),
    }
}
