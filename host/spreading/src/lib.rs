//! Which energy belongs to a distance: by multiplication alone, to judge programs that
//! divide or look it up. And a search for energies stored in a file.
#![forbid(unsafe_code)]

pub mod table;

/// The energy at a metre.
const ONE_METRE: u64 = 1 << 24;

/// The farthest that an arrival can be, in metres.
pub const MAX_DISTANCE: u64 = 1_024;

/// Whether a distance has this energy: the greatest whole number that, times the
/// square of the distance, is at most 2^24. At 0 it is 0.
pub fn is_energy(distance: u64, energy: u64) -> bool {
    if distance == 0 {
        return energy == 0;
    }
    let square = u128::from(distance) * u128::from(distance);
    let most = u128::from(ONE_METRE);
    let product = square.checked_mul(energy.into());
    // One more would be too much.
    product.map_or(false, |product| product <= most && most - product < square)
}

/// The energies at 1 to 1,024 metres.
pub fn energies() -> Vec<u64> {
    let mut energy = ONE_METRE;
    let at = |distance| {
        while !is_energy(distance, energy) {
            energy -= 1;
        }
        energy
    };
    (1..=MAX_DISTANCE).map(at).collect()
}

/// Distances without energy that are easily taken for others: some are near once their
/// high bits are lost, and the squares of some are 0 or small modulo 2^32 or 2^64.
pub fn wide_distances() -> Vec<u64> {
    let around = |bit| {
        let power = 1u64 << bit;
        [power - 1, power, power + 1, power + 3, power + MAX_DISTANCE]
    };
    let mut distances: Vec<u64> = (13..64).flat_map(around).collect();
    // Negative ones.
    distances.extend([u64::MAX, u64::MAX - 2, u64::MAX - (MAX_DISTANCE - 1)]);
    // Their squares are 18,532 and 17 modulo 2^32, 17 modulo 2^64, and just past 2^65.
    distances.extend([92_682, 869_476_073, 405_959_429_219_100_393]);
    distances.extend([6_074_001_000, 6_074_001_001]);
    distances
}
