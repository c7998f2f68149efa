//! The echogram of a run, and its picture.

use hall::{report, trace, Arguments, Hall, Image, Interleaving, Trace, SLOTS};
use wubraken::Shape;

const SHAPE: Shape = Shape {
    workers: 1,
    nodes: 1,
    buckets: 1,
    width: 1,
};

/// Whatever the order of turns, each arrival is in its slot, and none is refused.
#[test]
fn every_taken_arrival_is_recorded() {
    for seed in 0..20 {
        let arguments = Arguments {
            interleaving: Interleaving::AtRandom(seed),
            workers: 1 + seed % 5,
            order: seed as u32 % 6,
            ..Arguments::default()
        };
        let trace = trace(&arguments.job()).unwrap();
        let mut row = vec![0; SLOTS];
        for taken in trace.taken() {
            row[(u64::from(taken.time) / trace.slot_length) as usize] += taken.energy;
        }
        assert_eq!(trace.row, row, "seed {seed}");
        assert_eq!((trace.past_row, trace.sum_too_large), (0, 0));
    }
}

/// The fewest milliseconds will do, and one less would not.
#[test]
fn slots_are_as_short_as_they_can_be() {
    for order in 0..=15 {
        let mut job = Arguments::default().job();
        (job.order, job.shape.nodes) = (order, Shape::MAX_NODES);
        let trace = trace(&job).unwrap();
        let latest = trace.taken().iter().map(|taken| taken.time).max().unwrap();
        assert_eq!(job.hall.latest(order), latest);
        let row = |slot_length: u64| SLOTS as u64 * slot_length;
        assert!(u64::from(latest) < row(trace.slot_length));
        assert!(u64::from(latest) >= row(trace.slot_length - 48));
        assert_eq!(trace.slot_length % 48, 0);
    }
}

/// What is too far for a pool makes no slot longer. In a hall of 400 metres the images
/// mirrored 2 times lie at 790 and 810 metres, those mirrored 3 times backward at
/// 820, and forward at 1,580, which is too far.
#[test]
fn the_latest_is_one_that_is_accepted() {
    let mut hall = Arguments::default().job().hall;
    hall.size[0] = 40_000;
    for order in [2, 3, 4] {
        let latest = (0..1 << 15)
            .map(Image::from_path)
            .filter(|image| image.order() <= order)
            .map(|image| hall.arrival(image))
            .filter(|arrival| arrival.distance <= 1_024)
            .map(|arrival| arrival.time)
            .max();
        assert_eq!(Some(hall.latest(order)), latest);
    }
}

/// In a hall of a hand's breadth all 377 images up to order 6 are a metre away, by the
/// least distance: 2^24 each, of which 255 have a sum below 2^32.
#[test]
fn a_sum_that_is_too_large_is_counted() {
    let mut job = Arguments::default().job();
    job.order = 6;
    job.hall = Hall {
        size: [3; 3],
        source: [1; 3],
        listener: [2; 3],
    };
    let trace = trace(&job).unwrap();
    assert_eq!(trace.taken().len(), 1 + 6 + 18 + 38 + 66 + 102 + 146);
    assert_eq!(
        trace.row.iter().map(|&slot| u64::from(slot)).sum::<u64>(),
        255 << 24
    );
    assert_eq!((trace.past_row, trace.sum_too_large), (0, 377 - 255));
    let text = report(job.shape, &trace);
    let first = format!("    0      0 4278190080    0.0 {}\n", "#".repeat(60));
    assert!(text.contains(&first), "{text}");
    assert!(text.contains(
        "sum of the slots: 4278190080; of the energies taken: 6325010432\n\
         recordings refused: 0 past the row (14), 122 by a sum above 2^32 - 1 (15)\n"
    ));
}

/// The echogram alone.
fn picture(trace: &Trace) -> String {
    let text = report(SHAPE, trace);
    let (_, picture) = text.split_once("echogram: ").unwrap();
    picture.to_string()
}

/// The square root of a half is 0.707, and that of a tenth 0.316; 60 times as much is 42.4
/// and 19.0, of a quarter 30. From a 3,600th of the strongest down it is one mark.
///
/// From slot 3 on 1,350,556 are left, of 1,850,556: 747 of 1,024, whose hundredfold logarithm
/// is 287.3, and that of 1,024 is 301.03. Then 350,556 are left, 193 and 228.6; 250,556, 138
/// and 214.0; and 556, which is less than a 1,024th. A tenth or less is left from slot 6 on,
/// as is less than -25 dB; -5 dB is 585,197, from slot 4 on.
#[test]
fn bars_by_hand() {
    let trace = Trace {
        row: vec![
            0, 0, 500_000, 1_000_000, 100_000, 250_000, 0, 278, 277, 1, 0,
        ],
        slot_length: 96,
        ..Trace::default()
    };
    let [half, all, tenth, quarter] = [43, 60, 19, 30].map(|marks| "#".repeat(marks));
    let expected = format!(
        "11 slots of 2 ms; bars by the square root of the energy, the strongest slot has 60\n\
         level: the sum from a slot to the end, rounded down to 1,024ths of all, in dB; a dash for none\n \
         slot     ms     energy  level\n    \
         0      0          0    0.0\n    \
         1      2          0    0.0\n    \
         2      4     500000    0.0 {half}\n    \
         3      6    1000000   -1.4 {all}\n    \
         4      8     100000   -7.3 {tenth}\n    \
         5     10     250000   -8.8 {quarter}\n    \
         6     12          0      -\n    \
         7     14        278      - ##\n    \
         8     16        277      - #\n    \
         9     18          1      - #\n   \
         10     20          0      -\n\
         sum of the slots: 1850556; of the energies taken: 0\n\
         recordings refused: 0 past the row (14), 0 by a sum above 2^32 - 1 (15)\n\
         early decay: 36 slots, 72 ms (6 times the first crossing of -10 dB)\n\
         T20: 6 slots, 12 ms (3 times the way from the first crossing of -5 dB to that of -25 dB)\n\
         crossings: of sums, not of rounded levels; in whole slots; no line is fitted (ISO 3382 fits one)\n"
    );
    assert_eq!(picture(&trace), expected);
}

/// A source 20 metres away is heard after 40 milliseconds.
#[test]
fn an_echogram_without_a_recording() {
    let mut job = Arguments::default().job();
    (job.order, job.slot) = (0, Some(1));
    job.hall.listener = [2_300, 700, 150];
    job.hall.source = [300, 700, 150];
    let trace = trace(&job).unwrap();
    assert_eq!((trace.taken().len(), trace.past_row), (1, 1));
    let picture = picture(&trace);
    let lines: Vec<&str> = picture.lines().collect();
    assert_eq!(lines.len(), 3 + SLOTS + 3);
    let empty = |line: &&str| line.ends_with(" 0      -");
    assert!(lines[3..][..SLOTS].iter().all(empty));
    assert!(picture.ends_with(
        "sum of the slots: 0; of the energies taken: 41943\n\
         recordings refused: 1 past the row (14), 0 by a sum above 2^32 - 1 (15)\n\
         no early decay and no T20: nothing was recorded (17)\n"
    ));
}
