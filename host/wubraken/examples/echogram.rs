//! The echogram of what was taken: a pool is filled and drained, and each arrival's
//! energy added to the slot of its time.
//!
//!     cargo run --release --offline -p wubraken --example echogram

use wubraken::{Arrival, Echogram, Pool, Refusal, Shape, Take};

/// Time in samples, and distance in metres, as sound goes them at 48 kHz.
const ARRIVALS: [(u32, u32); 6] = [
    (1_400, 10),
    (2_520, 18),
    (1_400, 10),
    (3_500, 25),
    (2_800, 20),
    (4_900, 35),
];

fn fill(pool: &mut Pool) -> Result<(), Refusal> {
    for (path, (time, distance)) in (0..).zip(ARRIVALS) {
        let arrival = Arrival {
            time,
            path,
            order: 0,
            distance,
        };
        let _ = pool.put(0, arrival, u64::MAX)?;
    }
    Ok(())
}

/// Takes all that is in the pool, and records it.
fn drain(pool: &mut Pool, echogram: &mut Echogram) -> Result<(), Refusal> {
    while let Take::Took(taken) = pool.take(0, u64::MAX)? {
        match echogram.record_taken(&taken) {
            // It comes after the last slot.
            Err(Refusal::PastRow) => {}
            recorded => recorded?,
        }
    }
    Ok(())
}

/// The slots: ten of ten milliseconds.
pub fn run() -> Result<Vec<u32>, Refusal> {
    let mut pool = Pool::new(Shape {
        workers: 1,
        nodes: 6,
        buckets: 10,
        width: 480,
    })?;
    let mut echogram = Echogram::new(10, 480)?;
    fill(&mut pool)?;
    drain(&mut pool, &mut echogram)?;
    Ok(echogram.into_row())
}

pub fn main() -> Result<(), Refusal> {
    for (slot, energy) in (0..).zip(run()?) {
        println!("{:>3} ms {energy:>9}", 10 * slot);
    }
    Ok(())
}
