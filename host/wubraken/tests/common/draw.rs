//! Arguments and memory at random.

use schedule::lent::{fields, often_small, Memory};
use schedule::{times, Random};
use wubraken::{Arrival, Shape, Worker};

use super::guarded::{GARBAGE, GARBAGE_RECORD};
use super::translate;

/// At any time, or, half of them, of few times and orders, so that many are equal. Mostly
/// in range; each other field sometimes at its bound, past it, or far past it.
pub fn any_arrival(random: &mut Random, shape: Shape) -> Arrival {
    let time = times::any(random, translate::shape(shape));
    let mut field = |least: u32, most: u32| match random.below(24) {
        0 => least.wrapping_sub(1),
        1 => most + 1,
        2 => most | 1 << 16,
        3 => u32::MAX,
        4..=7 => most,
        _ => random.between(least, most),
    };
    let arrival = Arrival {
        time,
        path: field(0, Arrival::MAX_PATH),
        order: field(0, Arrival::MAX_ORDER),
        distance: field(1, Arrival::MAX_DISTANCE),
    };
    match random.below(2) {
        0 => arrival,
        _ => Arrival {
            time: random.below(2),
            order: random.below(3),
            ..arrival
        },
    }
}

/// Memory and what is known of it.
pub struct Drawn {
    pub store: Vec<u64>,
    pub table: Vec<Worker>,
    /// Long enough for the shape, and in range.
    pub is_sound: bool,
}

/// Memory for a shape: mostly in range, sometimes with a field out of it; mostly
/// with garbage behind, sometimes too short.
pub fn any_memory(random: &mut Random, shape: second::Shape) -> Drawn {
    let mut memory = Memory::in_range(random, shape);
    let is_damaged = random.one_in(4);
    if is_damaged {
        let field = random.choose(&fields(shape));
        let outside: Vec<u64> = memory.range(field).outside().collect();
        *memory.at(field) = random.choose(&outside);
    }
    let (mut store, mut table) = (memory.store, translate::table_back(&memory.workers));
    let is_short = random.one_in(16);
    if !is_short {
        let spare = random.choose(&[0, 1, 60, 300]);
        store.resize(store.len() + often_small(random, spare) as usize, GARBAGE);
        let spare = random.choose(&[0, 1, 61, 100]);
        table.resize(
            table.len() + often_small(random, spare) as usize,
            GARBAGE_RECORD,
        );
    } else if random.one_in(2) {
        store.truncate(random.below(store.len() as u32) as usize);
    } else {
        table.truncate(random.below(table.len() as u32) as usize);
    }
    Drawn {
        store,
        table,
        is_sound: !is_damaged && !is_short,
    }
}
