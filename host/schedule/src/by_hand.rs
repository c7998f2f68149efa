//! The worked example and the cases to check by hand, as scripts; ties are among them.

use second::{Arrival, Record};

use crate::script::{arrival, put, put_arrival, take, took, Script};
use crate::ties;

/// The worked example: the bytes of its turn file and what they print.
pub const WORKED_EXAMPLE: (&[u8], &str) = (
    b"OP\x01\x04\x00\x02\x00\x0A\x00\
    PU\x00\x05\x00\x00\x00\x07\x00\x01\x03\x00\
    TU\x00TU\x00TU\x00TU\x00TU\x00\
    TA\x00\
    TU\x00TU\x00TU\x00TU\x00TU\x00TU\x00TU\x00",
    "open\nbegun 1\non\non\non\non\nstored 1\n\
    begun 2\non\non\non\non\non\non\ntook 5 7 1 1864135\n",
);

/// Distances and their energies.
pub const ENERGIES: [(u32, u32); 4] = [(1, 16_777_216), (3, 1_864_135), (5, 671_088), (1_024, 16)];

/// Every case, by name.
pub fn cases() -> Vec<(String, Script)> {
    let mut cases = vec![
        ("fresh take, then put at 5", fresh_take_then_put_at_5()),
        ("fresh put at 15", fresh_put_at_15()),
        ("fresh put at 5, then take", fresh_put_at_5_then_take()),
        ("puts at 19 and 20", puts_at_19_and_20()),
        ("puts in the tail, then takes", puts_in_the_tail()),
        ("four puts", four_puts(1)),
        ("four puts at one time", four_puts(0)),
        ("distances out of range", distances_out_of_range()),
        ("two takers, the loser takes", two_takers_the_loser_takes()),
        (
            "two takers, the loser finds none",
            two_takers_the_loser_finds_none(),
        ),
    ]
    .into_iter()
    .chain(ties::cases())
    .map(|(name, script)| (name.to_string(), script))
    .collect::<Vec<_>>();
    for (distance, energy) in ENERGIES {
        cases.push((format!("distance {distance}"), energy_at(distance, energy)));
    }
    cases
}

fn fresh() -> Script {
    Script::open(2, 4, 2, 10)
}

pub fn fresh_take_then_put_at_5() -> Script {
    fresh().taken(0, 5, "empty").stored(0, 5, 5)
}

pub fn fresh_put_at_15() -> Script {
    fresh().stored(0, 15, 4)
}

pub fn fresh_put_at_5_then_take() -> Script {
    fresh().stored(0, 5, 5).taken(0, 7, &took(5))
}

/// Two widths end between them; the last bucket goes on.
pub fn puts_at_19_and_20() -> Script {
    fresh().put(0, 19).put(1, 20)
}

/// The last time there is, the first one past two widths, and one in bucket 0. Each
/// of the first two puts leaves current alone, and the second stops before the first.
pub fn puts_in_the_tail() -> Script {
    fresh()
        .stored(0, u32::MAX, 4)
        .stored(0, 20, 5)
        .stored(0, 5, 5)
        .taken(1, 7, &took(5))
        // Past bucket 0 by 8, 9 and 12; its search stops at the other node.
        .taken(1, 10, &took(20))
        .taken(1, 7, &took(u32::MAX))
        .taken(1, 3, "empty")
}

/// Each put walks past those stored before it, so many samples earlier.
pub fn four_puts(apart: u32) -> Script {
    let mut script = Script::open(4, 4, 2, 10);
    for worker in 0..4 {
        script = script.put(worker, 5 + apart * u32::from(worker));
    }
    for worker in 0..4 {
        script = script.refused(put(worker, 5), 9).refused(take(worker), 9);
    }
    for (worker, turns) in (0..4).zip(5..) {
        script = script.end(worker, turns, &format!("stored {}", worker + 1));
    }
    for worker in 0..4 {
        script = script.refused(put(worker, 5), 12);
    }
    script.take(0)
}

/// An arrival put and taken at this distance.
pub fn energy_at(distance: u32, energy: u32) -> Script {
    fresh()
        .begin(put_at_distance(distance))
        .end(0, 5, "stored 1")
        .taken(1, 7, &format!("took 5 7 1 {energy}"))
}

pub fn distances_out_of_range() -> Script {
    let mut script = fresh();
    for distance in [0, 1_025, 65_535] {
        script = script.refused(put_at_distance(distance), 5);
    }
    script
}

fn put_at_distance(distance: u32) -> Record {
    let arrival = Arrival {
        distance,
        ..arrival(5)
    };
    put_arrival(0, arrival)
}

/// Two takers, each about to mark the node of 5; 7 is behind it.
pub fn two_takers_before_7() -> Script {
    two_takers(fresh().stored(0, 5, 5).stored(0, 7, 6))
}

/// The same, with nothing behind 5.
pub fn two_takers_before_the_end() -> Script {
    two_takers(fresh().stored(0, 5, 5))
}

fn two_takers(script: Script) -> Script {
    script.take(0).turns(0, 3).take(1).turns(1, 3)
}

/// The loser needs four turns to mark 7: it does not begin again.
fn two_takers_the_loser_takes() -> Script {
    two_takers_before_7()
        .turns(0, 1)
        .turns(1, 4)
        .end(1, 5, &took(7))
        .end(0, 1, &took(5))
}

fn two_takers_the_loser_finds_none() -> Script {
    two_takers_before_the_end()
        .turns(0, 1)
        .turns(1, 2)
        .end(1, 3, "empty")
        .end(0, 3, &took(5))
}
