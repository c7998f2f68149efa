//! Energies worked out by hand.

use spreading::{energies, is_energy, wide_distances, MAX_DISTANCE};

const BY_HAND: [(u64, u64); 12] = [
    (1, 16_777_216),
    (2, 4_194_304),
    (3, 1_864_135),
    (5, 671_088),
    (1_024, 16),
    (1_025, 15),
    (2_364, 3),
    (2_365, 2),
    (2_896, 2),
    (2_897, 1),
    (4_096, 1),
    (4_097, 0),
];

#[test]
fn one_energy_a_distance() {
    for (distance, energy) in BY_HAND {
        assert!(is_energy(distance, energy), "{distance}");
        assert!(!is_energy(distance, energy + 1), "{distance}");
        assert!(!is_energy(distance, energy.wrapping_sub(1)), "{distance}");
    }
    for distance in wide_distances().into_iter().chain([0]) {
        assert!(is_energy(distance, 0), "{distance}");
        for energy in [1, 16, 1 << 24, u64::MAX] {
            assert!(!is_energy(distance, energy), "{energy} at {distance}");
        }
    }
}

#[test]
fn the_energies_of_arrivals() {
    let energies = energies();
    assert_eq!(energies.len() as u64, MAX_DISTANCE);
    for (distance, energy) in (1..).zip(energies) {
        assert!(is_energy(distance, energy), "{energy} at {distance}");
    }
}
