//! The last bucket takes the tail: an arrival far behind the others needs no wider
//! buckets, and is taken in its order all the same.
//!
//!     cargo run --release --offline -p wubraken --example tail

use wubraken::{Arrival, Pool, Refusal, Shape, Take};

/// Puts three arrivals and takes them: their times, each with its bucket.
pub fn run() -> Result<Vec<(u32, u64)>, Refusal> {
    // 16 buckets of a millisecond; the last one has what comes from sample 720 on.
    let shape = Shape {
        workers: 1,
        nodes: 3,
        buckets: 16,
        width: 48,
    };
    let mut pool = Pool::new(shape)?;
    // One of them comes after 20 seconds.
    for time in [700, 960_000, 5] {
        let arrival = Arrival {
            time,
            path: 7,
            order: 1,
            distance: 3,
        };
        let _ = pool.put(0, arrival, u64::MAX)?;
    }
    let mut taken = Vec::new();
    while let Take::Took(arrival) = pool.take(0, u64::MAX)? {
        // None only for a shape outside its limits, which no pool has.
        taken.extend(
            shape
                .bucket_of(arrival.time)
                .map(|bucket| (arrival.time, bucket)),
        );
    }
    Ok(taken)
}

pub fn main() -> Result<(), Refusal> {
    for (time, bucket) in run()? {
        println!("took {time}, of bucket {bucket}");
    }
    Ok(())
}
