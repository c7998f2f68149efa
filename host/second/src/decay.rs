//! How an echogram decays: early decay, T20, and the level of each slot.
//!
//! All of it is about the energy still to come: at a slot, what this slot and all behind
//! it hold together. At slot 0 that is the whole energy of the row; it never rises from
//! one slot to the next, and behind the row there is none. Rows are only read.

use crate::echogram::MAX_SLOTS;
use crate::response::Refusal;

/// The mark of a slot without a level, in a curve.
pub const NO_LEVEL: u16 = 65_535;
/// Energies become shares of the whole, which is this.
const WHOLE_SHARE: u64 = 1_024;
const SHARES: usize = WHOLE_SHARE as usize + 1;

/// The slots until at most a tenth of the energy is still to come, 10 dB down, drawn out
/// to 60 dB (refusals 13, 15, 17).
pub fn early_decay(row: &[u32]) -> Result<u64, Refusal> {
    let decay = Decay::new(row)?;
    let whole = u128::from(decay.whole);
    Ok(6 * decay.first_slot(|left| 10 * left <= whole))
}

/// The slots from 5 dB down to 25 dB down, drawn out to 60 dB (refusals 13, 15, 17).
/// In squared energies, where the one is a factor of 10 and the other of 10^5.
pub fn t20(row: &[u32]) -> Result<u64, Refusal> {
    let decay = Decay::new(row)?;
    let whole = u128::from(decay.whole).pow(2);
    let start = decay.first_slot(|left| 10 * left.pow(2) <= whole);
    let end = decay.first_slot(|left| 100_000 * left.pow(2) <= whole);
    Ok(3 * (end - start))
}

/// How far slot k lies below slot 0, in tenths of a decibel (refusals 13, 15, 17). There is
/// no level where less than a 1,024th of the energy is still to come.
pub fn level(row: &[u32], k: u64) -> Result<Option<u16>, Refusal> {
    let decay = Decay::new(row)?;
    let share = WHOLE_SHARE * decay.left_at(k) / decay.whole;
    let level = LEVELS.with(|levels| levels[share as usize]);
    Ok((level != NO_LEVEL).then_some(level))
}

/// The level of each slot of the row, in as many places of the buffer; others stay as they
/// are (refusals 13, 15, 17, 19).
pub fn decay_curve(row: &[u32], levels: &mut [u16]) -> Result<(), Refusal> {
    let decay = Decay::new(row)?;
    if levels.len() < row.len() {
        return Err(Refusal::BufferTooShort);
    }
    LEVELS.with(|level_of| decay.draw_curve(level_of, levels));
    Ok(())
}

/// A row in which there is energy to decay.
struct Decay<'a> {
    row: &'a [u32],
    /// From 1 to 2^32 - 1.
    whole: u64,
}

impl<'a> Decay<'a> {
    fn new(row: &'a [u32]) -> Result<Self, Refusal> {
        if !(1..=MAX_SLOTS).contains(&row.len()) {
            return Err(Refusal::EchogramOutsideLimits);
        }
        match sum(row) {
            whole if whole > u64::from(u32::MAX) => Err(Refusal::SumTooLarge),
            0 => Err(Refusal::SilentRow),
            whole => Ok(Self { row, whole }),
        }
    }

    /// The first slot where what is still to come passes a test, as nothing does; so the
    /// one behind the row is the last that it can be.
    fn first_slot(&self, passes: impl Fn(u128) -> bool) -> u64 {
        let mut left = self.whole;
        for (k, &slot) in (0..).zip(self.row) {
            if passes(u128::from(left)) {
                return k;
            }
            left -= u64::from(slot);
        }
        self.row.len() as u64
    }

    /// What is still to come at slot k.
    fn left_at(&self, k: u64) -> u64 {
        let from = usize::try_from(k).unwrap_or(usize::MAX);
        self.row.get(from..).map_or(0, sum)
    }

    /// Goes down with what is left, without a division: its share is the greatest whose
    /// part of the whole it still has.
    fn draw_curve(&self, level_of: &[u16; SHARES], levels: &mut [u16]) {
        let mut left = self.whole;
        let mut share = WHOLE_SHARE;
        for (&slot, level) in self.row.iter().zip(levels) {
            while share * self.whole > WHOLE_SHARE * left {
                share -= 1;
            }
            *level = level_of[share as usize];
            left -= u64::from(slot);
        }
    }
}

/// Of a row within its limits: below 2^46.
fn sum(row: &[u32]) -> u64 {
    row.iter().map(|&slot| u64::from(slot)).sum()
}

// Levels.

thread_local! {
    /// The level of each share, worked out when a thread first asks.
    static LEVELS: [u16; SHARES] = levels();
}

fn levels() -> [u16; SHARES] {
    let mut levels = [NO_LEVEL; SHARES];
    let start = log_of(WHOLE_SHARE);
    for (share, level) in (0..).zip(&mut levels).skip(1) {
        *level = start - log_of(share);
    }
    levels
}

/// The greatest power of ten within share^100, by its exponent: one less than share^100 has
/// digits. That is the share's logarithm in tenths of a decibel, rounded down.
fn log_of(share: u64) -> u16 {
    let mut power = Decimal::one();
    for _ in 0..100 {
        power.multiply(share);
    }
    power.digits() - 1
}

/// A number in base ten, of any size but 0.
struct Decimal {
    /// 15 digits each, the lowest first; the last is not 0.
    groups: Vec<u64>,
}

impl Decimal {
    const DIGITS: usize = 15;
    const BASE: u64 = 1_000_000_000_000_000;

    fn one() -> Self {
        Self { groups: vec![1] }
    }

    /// By 1 to 1,024: a group's product and the carry stay far below 2^64.
    fn multiply(&mut self, factor: u64) {
        let mut carry = 0;
        for group in &mut self.groups {
            let product = *group * factor + carry;
            *group = product % Self::BASE;
            carry = product / Self::BASE;
        }
        if carry > 0 {
            self.groups.push(carry);
        }
    }

    fn digits(&self) -> u16 {
        let whole_groups = self.groups.len() - 1;
        let first = self.groups[whole_groups].to_string();
        (whole_groups * Self::DIGITS + first.len()) as u16
    }
}
