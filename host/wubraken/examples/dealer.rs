//! A host without a scheduler: each worker begins its next call as soon as it is idle,
//! and a dealer deals their turns, going round.
//!
//!     cargo run --release --offline -p wubraken --example dealer

use wubraken::{Arrival, Dealer, Pool, Refusal, Shape, Step};

/// The worker's next call: a put, as long as there is something to put, or a take.
fn begin(pool: &mut Pool, worker: u64, times: &mut Vec<u32>) -> Result<u64, Refusal> {
    match times.pop() {
        None => pool.dequeue(worker),
        Some(time) => {
            let arrival = Arrival {
                time,
                path: 7,
                order: 1,
                distance: 3,
            };
            pool.enqueue(worker, arrival)
        }
    }
}

/// Three workers put six arrivals, and take them: who took which time.
pub fn run() -> Result<Vec<(u64, u32)>, Refusal> {
    let shape = Shape {
        workers: 3,
        nodes: 6,
        buckets: 16,
        width: 48,
    };
    let mut pool = Pool::new(shape)?;
    let mut dealer = Dealer::new(shape);
    let mut times = vec![100, 200, 300, 400, 500, 600];
    let mut taken = Vec::new();
    while taken.len() < 6 {
        for worker in 0..shape.workers {
            if !pool.in_progress(worker) {
                begin(&mut pool, worker, &mut times)?;
            }
        }
        // Until one of the calls has ended.
        let dealt = dealer.run(&mut pool, u64::MAX)?;
        if let Step::Took(arrival) = dealt.step? {
            taken.push((dealt.worker, arrival.time));
        }
    }
    Ok(taken)
}

pub fn main() -> Result<(), Refusal> {
    for (worker, time) in run()? {
        println!("worker {worker} took {time}");
    }
    Ok(())
}
