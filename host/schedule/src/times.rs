//! Times over all 32 bits: in every bucket, at the borders of the last one, and far
//! behind them all.

use random::Random;
use second::Shape;

/// A time of any kind: mostly near the last bucket's borders or far behind.
pub fn any(random: &mut Random, shape: Shape) -> u32 {
    match random.below(3) {
        0 => within(random, shape),
        1 => near_a_border(random, shape),
        _ => far(random, shape),
    }
}

/// One to three times of any kind, to choose from: many will be equal.
pub fn few(random: &mut Random, shape: Shape) -> Vec<u32> {
    let count = random.between(1, 3);
    (0..count).map(|_| any(random, shape)).collect()
}

/// A time within the span: all buckets alike.
pub fn within(random: &mut Random, shape: Shape) -> u32 {
    random.below(shape.span())
}

/// Where the last bucket begins or the span ends, a sample before or after.
pub fn near_a_border(random: &mut Random, shape: Shape) -> u32 {
    let first = shape.span() - shape.width;
    let border = random.choose(&[first, shape.span()]);
    near(random, border)
}

/// The last times there are, those about powers of two (which a wide span may reach), and
/// any time behind the span.
pub fn far(random: &mut Random, shape: Shape) -> u32 {
    match random.below(3) {
        0 => u32::MAX - random.below(3),
        1 => {
            let bits = random.choose(&[16, 24, 31]);
            near(random, 1 << bits)
        }
        _ => random.between(shape.span(), u32::MAX),
    }
}

/// The next lower time: by halves to a little behind the span, then one by one. After 0
/// comes the last time there is.
pub fn lower(time: u32, shape: Shape) -> u32 {
    let near_the_end = shape.span() + 3;
    match time.checked_sub(1) {
        None => u32::MAX,
        Some(_) if time > near_the_end => near_the_end.max(time / 2),
        Some(lower) => lower,
    }
}

/// This time, or the one before or after it.
fn near(random: &mut Random, time: u32) -> u32 {
    random.choose(&[time.saturating_sub(1), time, time + 1])
}
