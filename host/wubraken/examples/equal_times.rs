//! Arrivals of equal time: the direct sound is taken before a first reflection, that
//! before a second, whichever was put first. At equal orders the tickets decide.
//!
//!     cargo run --release --offline -p wubraken --example equal_times

use wubraken::{Arrival, Pool, Refusal, Shape, Take};

/// Time, order and path, as they are put.
const ARRIVALS: [(u32, u32, u32); 5] = [
    (481, 2, 10),
    (481, 1, 11),
    (481, 0, 12),
    (481, 1, 13),
    (480, 3, 14),
];

/// Puts the arrivals and takes them.
pub fn run() -> Result<Vec<(u32, u32, u32)>, Refusal> {
    let mut pool = Pool::new(Shape {
        workers: 1,
        nodes: 5,
        buckets: 16,
        width: 48,
    })?;
    for (time, order, path) in ARRIVALS {
        let arrival = Arrival {
            time,
            path,
            order,
            distance: 4,
        };
        let _ = pool.put(0, arrival, u64::MAX)?;
    }
    let mut taken = Vec::new();
    while let Take::Took(arrival) = pool.take(0, u64::MAX)? {
        taken.push((arrival.time, arrival.order, arrival.path));
    }
    Ok(taken)
}

pub fn main() -> Result<(), Refusal> {
    for (time, order, path) in run()? {
        println!("took {time}, order {order}, path {path}");
    }
    Ok(())
}
