//! A turn file with every distance.

use second::Arrival;
use spreading::{energies, MAX_DISTANCE};

use crate::script::{arrival, put_arrival, Script};

/// An arrival put and taken at every distance, one behind the other; those next to the
/// limits are refused.
pub fn every_distance() -> Script {
    let put = |distance: u64| {
        let arrival = Arrival {
            distance: distance as u32,
            ..arrival(5)
        };
        put_arrival(0, arrival)
    };
    let mut script = Script::open(2, 4, 2, 10).refused(put(0), 5);
    for (distance, energy) in (1..=MAX_DISTANCE).zip(energies()) {
        // Every put is followed by a take.
        let ticket = 2 * distance - 1;
        script = script
            .begin(put(distance))
            .end(0, 5, &format!("stored {ticket}"))
            .taken(1, 7, &format!("took 5 7 1 {energy}"));
    }
    script.refused(put(MAX_DISTANCE + 1), 5)
}
