//! The examples, run as they are.

#[path = "../examples/batches.rs"]
#[allow(dead_code)]
mod batches;
#[path = "../examples/dealer.rs"]
#[allow(dead_code)]
mod dealer;
#[path = "../examples/decay.rs"]
#[allow(dead_code)]
mod decay;
#[path = "../examples/echogram.rs"]
#[allow(dead_code)]
mod echogram;
#[path = "../examples/equal_times.rs"]
#[allow(dead_code)]
mod equal_times;
#[path = "../examples/tail.rs"]
#[allow(dead_code)]
mod tail;
#[path = "../examples/threads.rs"]
mod threads;

use schedule::{write_damaged, Options};
use wubraken::{Pool, Shape, Stop};

#[test]
fn threads_take_what_they_have_put() {
    threads::main().unwrap();
}

/// 700 is in the 15th millisecond, and 20 seconds are behind all 16.
#[test]
fn the_tail_is_taken_in_its_order() {
    let expected = vec![(5, 0), (700, 14), (960_000, 15)];
    assert_eq!(tail::run(), Ok(expected));
}

/// By time, whatever the order; at 481 by order, 0 to 2; of the two of order 1 path 11 was put
/// before path 13.
#[test]
fn equal_times_are_taken_by_order_then_by_ticket() {
    let expected = [
        (480, 3, 14),
        (481, 0, 12),
        (481, 1, 11),
        (481, 1, 13),
        (481, 2, 10),
    ];
    assert_eq!(equal_times::run(), Ok(expected.to_vec()));
}

/// 2^24 / 10² is 167,772, and comes twice in slot 2, of 960 to 1,439; 2^24 / 18² and
/// 2^24 / 20² are 51,781 and 41,943, in slot 5; 2^24 / 25² is 26,843, in slot 7. The
/// last time, 4,900, is of slot 10, past the row.
#[test]
fn an_echogram_of_what_was_taken() {
    let expected = vec![0, 0, 335_544, 0, 0, 93_724, 0, 26_843, 0, 0];
    assert_eq!(echogram::run(), Ok(expected));
}

/// R(k) is 2^(12 - k) - 1, and 4,095 at the start. A tenth of that is passed at 255, slot
/// 4: 6 × 4. Of the squares a tenth is passed at 1,023² and a part in 100,000 at 7², slots
/// 2 and 9: 3 × 7. 1,024 × R(k) / 4,095 is below 1,024, 512, 256 .. from slot 1 on, so r is
/// 511, 255 .. 1, and 0 from slot 10 on.
#[test]
fn the_decay_of_halves() {
    let levels = [0, 31, 61, 91, 122, 152, 184, 217, 254, 301];
    let expected = decay::Report {
        early_decay: 24,
        t20: 21,
        levels: levels.into_iter().map(Some).chain([None; 4]).collect(),
    };
    assert_eq!(decay::run(), Ok(expected));
    let printed = [Some(0), Some(31), Some(301), None].map(decay::in_decibels);
    assert_eq!(
        printed,
        ["0.0 dB below", "3.1 dB below", "30.1 dB below", "-"]
    );
}

/// The turns go round, and so do the calls: each worker puts in its turn, the latest time
/// first, and takes in its turn.
#[test]
fn a_dealer_serves_one_worker_after_the_other() {
    let times = [100, 200, 300, 400, 500, 600];
    let expected = [0, 1, 2, 0, 1, 2].into_iter().zip(times).collect();
    assert_eq!(dealer::run(), Ok(expected));
}

/// Among them files that end by 7 and by 8.
#[test]
fn batches_print_the_lines_of_a_file() {
    for seed in 0..40 {
        let (mut file, mut lines) = (Vec::new(), Vec::new());
        write_damaged(seed, 1_000, Options::default(), &mut file).unwrap();
        batches::run(&file[..], &mut lines).unwrap();
        let expected = schedule::lines(&file[..]);
        assert!(lines == expected.as_bytes(), "seed {seed}");
    }
}

#[test]
fn a_batch_by_hand() {
    let shape = Shape {
        workers: 1,
        nodes: 4,
        buckets: 2,
        width: 10,
    };
    let (batch, mut out) = (batches::by_hand(), [0; 1_000]);
    let end = Pool::new(shape).unwrap().run_batch(&batch, &mut out);
    assert_eq!((end.read, end.stop), (batch.len(), Stop::Drained));
    let (on, late) = ("on\n", "no 10\n");
    let (put, take) = (on.repeat(4), on.repeat(6));
    let expected =
        format!("begun 1\n{put}stored 1\n{late}{late}begun 2\n{take}took 5 7 1 1864135\n");
    assert_eq!(&out[..end.written], expected.as_bytes());
}
