//! The echogram: the energies of taken arrivals, added up by their times in a row of
//! slots that the caller lends.
//!
//! Nothing is kept beside the row. A recording is refused before the sum of all slots
//! would pass 2^32 - 1; a refusal leaves the row as it was.

use crate::response::Refusal;

pub const MAX_SLOTS: usize = 16_384;
/// Samples.
pub const MAX_SLOT_LENGTH: u64 = 4_800;
/// The most that the slots may hold together.
const MAX_SUM: i64 = u32::MAX as i64;

/// Sets every slot to 0 (refusal 13).
pub fn clear_row(slot_length: u64, row: &mut [u32]) -> Result<(), Refusal> {
    samples_in_slot(slot_length, row)?;
    row.fill(0);
    Ok(())
}

/// Adds an energy to the slot of its time (refusals 13 to 15).
pub fn record(slot_length: u64, time: u32, energy: u32, row: &mut [u32]) -> Result<(), Refusal> {
    let slot = (time / samples_in_slot(slot_length, row)?) as usize;
    let held = row.get(slot).ok_or(Refusal::SlotPastRow)?;
    let grown = held.checked_add(energy).ok_or(Refusal::SumTooLarge)?;
    if sum(row) + i64::from(energy) > MAX_SUM {
        return Err(Refusal::SumTooLarge);
    }
    row[slot] = grown;
    Ok(())
}

/// Records one by one, with an answer for each: 0, or the refusal's number. The row is
/// added up once. The whole series is refused by 2, if there are not as many of each,
/// and by 13.
pub fn record_series(
    slot_length: u64,
    times: &[u32],
    energies: &[u32],
    answers: &mut [u8],
    row: &mut [u32],
) -> Result<(), Refusal> {
    if energies.len() != times.len() || answers.len() != times.len() {
        return Err(Refusal::MemoryTooShort);
    }
    let ruler = Ruler::new(samples_in_slot(slot_length, row)?);
    // What the sum leaves; below 0 in a row that holds too much already.
    let mut room = MAX_SUM - sum(row);
    for ((&time, &energy), answer) in times.iter().zip(energies).zip(answers) {
        let left = room - i64::from(energy);
        *answer = match row.get_mut(ruler.slot_of(time)) {
            None => Refusal::SlotPastRow.number(),
            // No slot holds more than the sum: what passes there passes here.
            Some(_) if left < 0 => Refusal::SumTooLarge.number(),
            Some(slot) => {
                *slot += energy;
                room = left;
                0
            }
        };
    }
    Ok(())
}

/// The slot length, if it and the row are within their limits.
fn samples_in_slot(slot_length: u64, row: &[u32]) -> Result<u32, Refusal> {
    let is_within_limits =
        (1..=MAX_SLOTS).contains(&row.len()) && (1..=MAX_SLOT_LENGTH).contains(&slot_length);
    if is_within_limits {
        Ok(slot_length as u32)
    } else {
        Err(Refusal::EchogramOutsideLimits)
    }
}

/// Of a row within its limits: below 2^46.
fn sum(row: &[u32]) -> i64 {
    row.iter().map(|&slot| i64::from(slot)).sum()
}

/// Divides times by a slot length, by a multiplication each.
struct Ruler {
    /// (2^64 - 1) / length, rounded down: a little less than a sample's share of a slot,
    /// in parts of which a slot has 2^64.
    share: u64,
}

impl Ruler {
    /// For a length within its limits.
    fn new(length: u32) -> Self {
        Self {
            share: u64::MAX / u64::from(length),
        }
    }

    /// time / length, rounded down. The shares of time + 1 samples are less than
    /// (time + 1) / length slots, but by no more than 2^32 parts, which are less than a
    /// share. So they are at least time / length, and no whole number lies between the two.
    fn slot_of(&self, time: u32) -> usize {
        let samples = u64::from(time) + 1;
        let shares = u128::from(samples) * u128::from(self.share);
        (shares >> 64) as usize
    }
}
