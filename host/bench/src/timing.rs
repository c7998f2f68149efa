//! Best times, and results that the compiler must not drop.

use std::time::{Duration, Instant};

/// Something to time, in pieces that are the same in each round. It answers how
/// long they took: not all that it does counts.
pub type Contestant<'a> = &'a mut dyn FnMut() -> Vec<Duration>;

/// The best time of each contestant: of every piece its best round. They take
/// turns, and pieces are short, so that what else the machine does matters little.
pub fn best<const N: usize>(rounds: usize, mut contestants: [Contestant<'_>; N]) -> [Duration; N] {
    let mut best = [(); N].map(|()| Vec::new());
    for _ in 0..rounds {
        for (best, contestant) in best.iter_mut().zip(&mut contestants) {
            let times = contestant();
            best.resize(times.len(), Duration::MAX);
            for (best, time) in best.iter_mut().zip(times) {
                *best = time.min(*best);
            }
        }
    }
    best.map(|times| times.into_iter().sum())
}

/// How long an action takes.
pub fn time(action: impl FnOnce()) -> Duration {
    let start = Instant::now();
    action();
    start.elapsed()
}

/// How often something can be done in about a millisecond.
pub fn cycles_in_a_millisecond(cycle: impl FnMut() -> Duration) -> usize {
    cycles_in(1_000, cycle)
}

/// How often something can be done in about so many microseconds.
pub fn cycles_in(microseconds: u64, mut cycle: impl FnMut() -> Duration) -> usize {
    let one = cycle().min(cycle());
    let span = u128::from(1_000 * microseconds);
    (span / one.as_nanos().max(1)).clamp(1, 10_000) as usize
}

/// A round that takes about a millisecond can be made so many times more often.
pub const SHORT: usize = 10;

/// Nanoseconds for each of so many things.
pub fn nanoseconds_each(time: Duration, count: usize) -> f64 {
    time.as_nanos() as f64 / count as f64
}

/// Uses a result, so that the compiler must have it.
pub fn keep(value: u64) {
    unknown(value);
}

/// The same value, which the compiler must not know.
#[allow(unsafe_code)]
pub fn unknown<T: Copy>(value: T) -> T {
    // SAFETY: a reference is good to read from. (black_box came with Rust 1.66.)
    unsafe { std::ptr::read_volatile(&value) }
}
