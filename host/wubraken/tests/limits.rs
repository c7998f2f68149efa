//! Shapes and arrivals at and past every limit, on memory that fits or is too
//! short.

mod common;

use common::both::Both;
use common::lent::Call;
use common::seeds::on_seeds;
use common::{shape, translate, ARRIVAL};
use wubraken::raw::kind;
use wubraken::{Arrival, Pool, Refusal, Shape};

const LIMITS: [u64; 4] = [
    Shape::MAX_WORKERS,
    Shape::MAX_NODES,
    Shape::MAX_BUCKETS,
    Shape::MAX_WIDTH,
];

/// At the limits, past them, and at them once the high bits are lost.
fn values(most: u64) -> [u64; 8] {
    let low = 1 << 32;
    [
        1,
        most,
        0,
        most + 1,
        2 * most,
        low + 1,
        low | most,
        u64::MAX,
    ]
}

/// All shapes of such values.
fn shapes() -> impl Iterator<Item = Shape> {
    (0..8usize.pow(4)).map(|nth| {
        let field = |place: u32| values(LIMITS[place as usize])[nth / 8usize.pow(place) % 8];
        shape(field(0), field(1), field(2), field(3))
    })
}

/// The first field outside its limits.
fn outside(shape: Shape) -> Option<usize> {
    let fields = fields(shape);
    (0..4).find(|&place| !(1..=LIMITS[place]).contains(&fields[place]))
}

fn fields(shape: Shape) -> [u64; 4] {
    [shape.workers, shape.nodes, shape.buckets, shape.width]
}

fn is_within_limits(shape: Shape) -> bool {
    outside(shape).is_none()
}

fn every_call(worker: u64) -> Vec<Call> {
    let mut calls = vec![Call::Open];
    calls.extend(Call::of_worker(worker, ARRIVAL));
    calls.extend(Call::narrow_of_worker(worker, ARRIVAL, u64::MAX));
    calls
}

#[test]
fn words_to_lend() {
    let mut within = 0;
    for shape in shapes() {
        let words = is_within_limits(shape).then(|| translate::shape(shape).store_words());
        assert_eq!(shape.words(), words, "{shape:?}");
        within += usize::from(words.is_some());
    }
    assert_eq!(within, 16);
}

/// The first field that is outside is named, with what it is and its limits.
#[test]
fn check_names_the_field_of_a_shape() {
    for shape in shapes() {
        let text = outside(shape).map(|place| {
            let name = ["workers", "nodes", "buckets", "width"][place];
            let (value, most) = (fields(shape)[place], LIMITS[place]);
            format!("{name} is {value}, and must be 1 to {most}")
        });
        let said = shape.check().err().map(|outside| outside.to_string());
        assert_eq!(said, text);
    }
}

/// What is outside by the check is what the pool refuses, at whatever time.
#[test]
fn check_names_the_field_of_an_arrival() {
    let pool = Pool::new(shape(1, 1, 2, 10)).unwrap();
    let arrival = |fields: [u32; 4]| Arrival {
        time: fields[0],
        path: fields[1],
        order: fields[2],
        distance: fields[3],
    };
    let good = [
        19,
        Arrival::MAX_PATH,
        Arrival::MAX_ORDER,
        Arrival::MAX_DISTANCE,
    ];
    let check = |fields: [u32; 4], said: Option<&str>| {
        let refused = pool.clone().enqueue(0, arrival(fields)).err();
        let outside = arrival(fields).check().err();
        assert_eq!(refused, said.map(|_| Refusal::BadArrival), "{fields:?}");
        assert_eq!(outside.map(|it| it.field), said);
        assert_eq!(outside.map(|it| it.refusal), refused);
    };
    let names = ["time", "path", "order", "distance"];
    for time in [0, 19, 20, 1 << 31, u32::MAX] {
        let mut good = good;
        good[0] = time;
        check(good, None);
        check([time, 0, 0, 1], None);
        check([time, 0, 0, 0], Some("distance"));
        for place in 1..4 {
            for value in [good[place] + 1, u32::MAX] {
                let mut fields = good;
                fields[place] = value;
                check(fields, Some(names[place]));
            }
        }
    }
}

/// By the wrapper, and by the start of a put; each bucket is worked out by hand.
#[test]
fn buckets_of_times() {
    for (buckets, width, expected) in [
        (2, 10, &[(0, 0), (9, 0), (10, 1), (19, 1), (20, 1)][..]),
        (1, 1, &[(0, 0), (1, 0), (65_536, 0)]),
        (3, 7, &[(6, 0), (7, 1), (13, 1), (14, 2), (20, 2), (21, 2)]),
        (256, 1, &[(254, 254), (255, 255), (256, 255), (512, 255)]),
        (
            256,
            65_535,
            &[
                (65_534, 0),
                (65_535, 1),
                (16_711_424, 254),
                (16_711_425, 255),
                (16_776_960, 255),
                (4_294_901_760, 255),
            ],
        ),
    ] {
        let shape = shape(1, 1, buckets, width);
        let last = [(u32::MAX, buckets - 1)];
        for &(time, bucket) in expected.iter().chain(&last) {
            let mut pool = Pool::new(shape).unwrap();
            assert_eq!(pool.enqueue(0, Arrival { time, ..ARRIVAL }), Ok(1));
            assert_eq!(pool.table()[0].bucket, bucket, "{time} of {shape:?}");
            assert_eq!(shape.bucket_of(time), Some(bucket), "{time} of {shape:?}");
        }
    }
    for shape in shapes() {
        let has_buckets = is_within_limits(shape);
        assert_eq!(shape.bucket_of(0), has_buckets.then_some(0), "{shape:?}");
        assert_eq!(shape.bucket_of(u32::MAX).is_some(), has_buckets);
    }
}

/// 1 comes first, however much or little is lent.
#[test]
fn outside_the_limits() {
    let lent = [(0, 0), (0, 1), (64, 64)].map(|(words, records)| Both::garbage(words, records));
    for shape in shapes().filter(|&shape| !is_within_limits(shape)) {
        for lent in &lent {
            for call in every_call(0) {
                assert_eq!(lent.clone().call(shape, call).number, 1, "{shape:?}");
            }
        }
    }
}

#[test]
fn too_short_by_one_or_all() {
    for shape in shapes().filter(|&shape| is_within_limits(shape)) {
        let (words, records) = (shape.words().unwrap(), shape.workers as usize);
        for (words, records) in [(words - 1, records), (words, records - 1), (0, 0)] {
            let lent = Both::garbage(words, records);
            for call in every_call(0) {
                assert_eq!(lent.clone().call(shape, call).number, 2, "{shape:?}");
            }
        }
    }
}

/// Opens each corner of the limits and lets its first and last workers put into
/// and take from the first and last times, with the tail and without.
#[test]
fn corners_of_the_limits() {
    on_seeds("corners", |random| {
        for shape in shapes().filter(|&shape| is_within_limits(shape)) {
            let spare = random.below(3) as usize;
            let (words, records) = (shape.words().unwrap(), shape.workers as usize);
            let mut lent = Both::garbage(words + spare, records + spare);
            assert_eq!(lent.call(shape, Call::Open).kind, kind::OPEN);
            let span = (shape.buckets * shape.width) as u32;
            let mut ended = 0;
            // Two takes may walk through all the buckets, in two turns each.
            for _ in 0..1_200 {
                let worker = random.choose(&[0, shape.workers - 1]);
                let arrival = Arrival {
                    time: random.choose(&[0, span - 1, span, u32::MAX]),
                    path: random.choose(&[0, Arrival::MAX_PATH]),
                    order: random.choose(&[0, Arrival::MAX_ORDER]),
                    distance: random.choose(&[1, Arrival::MAX_DISTANCE]),
                };
                let is_idle = lent.record(worker as usize).unwrap().stage == 0;
                let call = match (is_idle, random.one_in(2)) {
                    (false, _) => Call::Step(worker),
                    (true, true) => Call::Enqueue(worker, arrival),
                    (true, false) => Call::Dequeue(worker),
                };
                let call = match random.below(4) {
                    0 => call.narrow(random.choose(&[0, 1, 2, u64::MAX])),
                    _ => call,
                };
                let answer = lent.call(shape, call);
                let ends = [kind::STORED, kind::TOOK, kind::EMPTY];
                ended += u32::from(ends.contains(&answer.kind));
            }
            assert!(ended > 0, "{shape:?}");
            for worker in [shape.workers, 1 << 32, u64::MAX] {
                for call in every_call(worker).into_iter().skip(1) {
                    assert_eq!(lent.call(shape, call).number, 4, "{call:?}");
                }
            }
        }
    });
}
