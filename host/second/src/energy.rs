//! The energy at a distance, from a table of those that an arrival can have.

use crate::shape::Arrival;

const ENTRIES: usize = Arrival::MAX_DISTANCE as usize;
/// Its square is 2^24: farther away nothing is left.
const FARTHEST: u64 = 4_096;

/// Entry i is for distance i + 1.
static ENERGY: [u32; ENTRIES] = energies();

const fn energies() -> [u32; ENTRIES] {
    let mut table = [0; ENTRIES];
    let mut i = 0;
    while i < ENTRIES {
        table[i] = spread(i as u64 + 1);
        i += 1;
    }
    table
}

/// The greatest whole number that, times the square, is at most 2^24: each bit that can
/// be in it is, the highest first. For a distance from 1 to the farthest.
const fn spread(distance: u64) -> u32 {
    let square = distance * distance;
    let mut energy = 0;
    let mut bit = 1 << 24;
    while bit > 0 {
        if (energy + bit) * square <= 1 << 24 {
            energy += bit;
        }
        bit >>= 1;
    }
    energy as u32
}

/// The energy at any distance; 0 at 0. Only a narrow call meets distances that
/// the table does not have.
pub fn energy(distance: u64) -> u32 {
    const MOST: u64 = ENTRIES as u64;
    match distance {
        0 => 0,
        1..=MOST => ENERGY[distance as usize - 1],
        _ if distance <= FARTHEST => spread(distance),
        _ => 0,
    }
}
