//! Rows of echograms as they are when the recording is over, to be read for their decay:
//! of every kind, at and past every limit.

use random::Random;
use second::MAX_SLOTS;

use crate::echograms::{spread, MAX_SUM};

/// A slot may hold so many bits in every slot of the longest row, within the largest sum.
const SLOT_BITS: u32 = 18;

/// What a row is like.
#[derive(Clone, Copy, Debug, PartialEq, Eq, PartialOrd, Ord)]
pub enum Kind {
    /// No slot.
    Empty,
    /// More slots than a row may have, whatever they hold.
    TooLong,
    /// Every slot is 0.
    Silent,
    OneSlot,
    /// Every slot holds the same.
    Equal,
    /// Zeros, then slots that are not 0.
    ZerosInFront,
    /// Slots that are not 0, then zeros.
    ZerosAtEnd,
    /// One slot is not 0.
    Spike,
    /// Most slots are 0.
    Sparse,
    /// No slot is 0.
    Dense,
    /// Each slot holds the same share of what those before it left.
    Decay,
    /// The share goes up and down, by up to a half.
    NoisyDecay,
    /// At some slot just a tenth of the energy is still to come.
    Tenth,
    /// The sum is 2^32 - 1.
    LargestSum,
    /// The sum is 2^32.
    SumOneAbove,
    /// The sum is from 2^32 + 1 to 2^32 + 8.
    SumAbove,
    /// Every slot holds 2^32 - 1, of two slots or more.
    Overfull,
}

impl Kind {
    pub const ALL: [Self; 17] = [
        Self::Empty,
        Self::TooLong,
        Self::Silent,
        Self::OneSlot,
        Self::Equal,
        Self::ZerosInFront,
        Self::ZerosAtEnd,
        Self::Spike,
        Self::Sparse,
        Self::Dense,
        Self::Decay,
        Self::NoisyDecay,
        Self::Tenth,
        Self::LargestSum,
        Self::SumOneAbove,
        Self::SumAbove,
        Self::Overfull,
    ];

    /// Those with a sum from 1 to 2^32 - 1, in a row within its limits.
    pub fn is_heard(self) -> bool {
        use Kind::*;
        !matches!(
            self,
            Empty | TooLong | Silent | SumOneAbove | SumAbove | Overfull
        )
    }
}

/// A row and its kind.
#[derive(Clone, Debug, PartialEq, Eq)]
pub struct Case {
    pub kind: Kind,
    pub row: Vec<u32>,
}

impl Case {
    /// The case of a seed.
    pub fn new(seed: u64) -> Self {
        Self::draw(&mut Random::new(seed))
    }

    /// A row of any kind, of any length that the kind may have.
    pub fn draw(random: &mut Random) -> Self {
        let slots = slots(random);
        Self::draw_up_to(random, slots)
    }

    /// A row of any kind and no more than 20 slots, where the kind may have so few.
    pub fn draw_short(random: &mut Random) -> Self {
        let slots = random.between(1, 20) as usize;
        Self::draw_up_to(random, slots)
    }

    fn draw_up_to(random: &mut Random, slots: usize) -> Self {
        let kind = random.choose(&Kind::ALL);
        let row = row(random, kind, slots);
        Self { kind, row }
    }
}

fn slots(random: &mut Random) -> usize {
    const MAX: u32 = MAX_SLOTS as u32;
    let slots = match random.below(16) {
        0..=1 => 2,
        2..=5 => random.between(3, 20),
        6..=9 => random.length(14),
        10..=12 => random.between(1, MAX),
        _ => MAX,
    };
    slots as usize
}

/// A row of so many slots, unless the kind has other lengths.
fn row(random: &mut Random, kind: Kind, slots: usize) -> Vec<u32> {
    match kind {
        Kind::Empty => Vec::new(),
        Kind::TooLong => too_long(random),
        Kind::Silent => vec![0; slots],
        Kind::OneSlot => vec![energy(random)],
        Kind::Equal => vec![small_energy(random); slots],
        Kind::ZerosInFront => zeros_in_front(random, slots),
        Kind::ZerosAtEnd => {
            let mut row = zeros_in_front(random, slots);
            row.reverse();
            row
        }
        Kind::Spike => spike(random, slots),
        Kind::Sparse => sparse(random, slots),
        Kind::Dense => dense(random, slots),
        Kind::Decay => decay(random, slots, 0),
        Kind::NoisyDecay => decay(random, slots, 1),
        Kind::Tenth => tenth(random, slots.max(2)),
        Kind::LargestSum => with_sum(random, MAX_SUM, slots),
        Kind::SumOneAbove => with_sum(random, MAX_SUM + 1, slots.max(2)),
        Kind::SumAbove => {
            let more = random.between(2, 9);
            with_sum(random, MAX_SUM + u64::from(more), slots.max(2))
        }
        Kind::Overfull => vec![u32::MAX; slots.max(2)],
    }
}

/// Not 0, and often one that few bits hold or nearly the most.
fn energy(random: &mut Random) -> u32 {
    match random.below(8) {
        0 => u32::MAX,
        1 => u32::MAX - random.below(9),
        2 => random.between(1, u32::MAX - 1),
        _ => random.length(31),
    }
}

/// Not 0, and small enough for every slot of the longest row.
fn small_energy(random: &mut Random) -> u32 {
    let most = largest(random);
    random.between(1, most)
}

fn largest(random: &mut Random) -> u32 {
    (1 << random.between(1, SLOT_BITS)) - 1
}

/// Mostly by one slot. Some would be refused by other numbers, too.
fn too_long(random: &mut Random) -> Vec<u32> {
    let more = random.choose(&[1, 1, 1, 2, MAX_SLOTS, 3 * MAX_SLOTS + 1]);
    let slot = random.choose(&[0, 1, u32::MAX]);
    vec![slot; MAX_SLOTS + more]
}

/// At least one zero, and at least one slot that is not.
fn zeros_in_front(random: &mut Random, slots: usize) -> Vec<u32> {
    let slots = slots.max(2);
    let zeros = random.between(1, slots as u32 - 1) as usize;
    let mut row = vec![0; zeros];
    row.extend(dense(random, slots - zeros));
    row
}

fn spike(random: &mut Random, slots: usize) -> Vec<u32> {
    let mut row = vec![0; slots];
    let at = match random.below(4) {
        0 => 0,
        1 => slots - 1,
        _ => random.below(slots as u32) as usize,
    };
    row[at] = energy(random);
    row
}

/// At least one slot is not 0, and at most a quarter, if that is one or more.
fn sparse(random: &mut Random, slots: usize) -> Vec<u32> {
    let mut row = vec![0; slots];
    let most = (slots as u32 / 4).max(1);
    for _ in 0..random.between(1, most) {
        row[random.below(slots as u32) as usize] = small_energy(random);
    }
    row
}

fn dense(random: &mut Random, slots: usize) -> Vec<u32> {
    let most = largest(random);
    (0..slots).map(|_| random.between(1, most)).collect()
}

/// A slot gets one part in 2 of what is left, or one in more, up to a fourth of the row's
/// slots. What the last slot leaves is lost.
fn decay(random: &mut Random, slots: usize, noise: u64) -> Vec<u32> {
    const UNIT: u64 = 1 << 20;
    let slowest = (slots as u32 / 4).max(2);
    let rate = UNIT / u64::from(random.length(14).clamp(2, slowest));
    let mut left = u64::from(random.between(1 << 24, u32::MAX));
    let mut row = Vec::with_capacity(slots);
    for _ in 0..slots {
        let swing = noise * rate / 2;
        let share = rate - swing + random.draw() % (2 * swing + 1);
        let slot = left * share / UNIT;
        left -= slot;
        row.push(slot as u32);
    }
    row
}

/// Nine parts in front of some slot, one from there on.
fn tenth(random: &mut Random, slots: usize) -> Vec<u32> {
    const MOST: u32 = u32::MAX / 10;
    let part = match random.below(4) {
        0 => MOST,
        1 => random.between(1, MOST),
        _ => random.length(28),
    };
    let front = random.between(1, slots as u32 - 1) as usize;
    let mut row = with_sum(random, 9 * u64::from(part), front);
    row.extend(with_sum(random, part.into(), slots - front));
    row
}

fn with_sum(random: &mut Random, sum: u64, slots: usize) -> Vec<u32> {
    let mut row = vec![0; slots];
    spread(random, sum, &mut row);
    row
}
