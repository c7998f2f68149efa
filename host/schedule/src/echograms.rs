//! Echograms with recordings for them: rows, slot lengths, times and energies of every
//! kind, at and past every limit.

use random::Random;
use second::{MAX_SLOTS, MAX_SLOT_LENGTH};

/// The most that the slots of a row may hold together.
pub(crate) const MAX_SUM: u64 = u32::MAX as u64;

/// A lent row with its slot length, and recordings: as many times as energies.
#[derive(Clone, Debug, PartialEq, Eq)]
pub struct Case {
    pub slot_length: u64,
    pub row: Vec<u32>,
    pub times: Vec<u32>,
    pub energies: Vec<u32>,
}

impl Case {
    /// The case of a seed.
    pub fn new(seed: u64) -> Self {
        Self::draw(&mut Random::new(seed))
    }

    /// Mostly within the limits; sometimes the row's length, the slot length or both are
    /// outside. Up to 256 recordings.
    pub fn draw(random: &mut Random) -> Self {
        let slots = slots(random);
        let mut case = Self {
            slot_length: slot_length(random),
            row: row(random, slots),
            times: Vec::new(),
            energies: Vec::new(),
        };
        if !random.one_in(16) {
            let recordings = random.length(8);
            case.draw_recordings(random, recordings);
        }
        case
    }

    /// The energies follow the sum that the recordings before them lead to.
    fn draw_recordings(&mut self, random: &mut Random, recordings: u32) {
        let scale = Scale::new(self);
        let mut sum = sum(&self.row);
        let is_patient = !random.one_in(3);
        for _ in 0..recordings {
            let time = scale.time(random);
            let energy = match is_patient && !random.one_in(32) {
                true => random.length(16),
                false => energy(random, sum),
            };
            let grown = sum + u64::from(energy);
            if time < scale.span() && grown <= MAX_SUM {
                sum = grown;
            }
            self.times.push(time);
            self.energies.push(energy);
        }
    }
}

fn sum(row: &[u32]) -> u64 {
    row.iter().map(|&slot| u64::from(slot)).sum()
}

// Rows and slot lengths.

fn slots(random: &mut Random) -> usize {
    const MAX: u32 = MAX_SLOTS as u32;
    let slots = match random.below(16) {
        0 => random.choose(&[0, MAX + 1]),
        1..=3 => 1,
        4..=5 => 2,
        6..=8 => random.between(3, 20),
        9..=10 => random.length(14),
        11..=12 => random.between(1, MAX),
        _ => MAX,
    };
    slots as usize
}

/// Some of those outside are within once their high bits are lost.
fn slot_length(random: &mut Random) -> u64 {
    const MAX: u32 = MAX_SLOT_LENGTH as u32;
    const WIDE: u64 = 1 << 32;
    const WIDEST: u64 = 1 << 63;
    match random.below(10) {
        0 if random.one_in(3) => 0,
        0 => random.choose(&[
            MAX_SLOT_LENGTH + 1,
            WIDE,
            WIDE + 48,
            WIDEST,
            WIDEST + 1,
            u64::MAX,
        ]),
        1..=2 => 1,
        3..=4 => 48,
        5..=6 => MAX_SLOT_LENGTH,
        7 => random.between(2, 47).into(),
        _ => random.between(1, MAX).into(),
    }
}

fn row(random: &mut Random, slots: usize) -> Vec<u32> {
    let mut row = vec![0; slots];
    match random.below(20) {
        0..=7 => {}
        8..=10 => row.fill_with(|| random.below(1 << 16)),
        11..=12 if slots > 0 => {
            row[random.below(slots as u32) as usize] = u32::MAX - random.below(9);
        }
        13 => row.fill(u32::MAX),
        14 => row.fill_with(|| random.draw() as u32),
        _ => {
            let sum = sum_near_the_most(random);
            spread(random, sum, &mut row);
        }
    }
    row
}

fn sum_near_the_most(random: &mut Random) -> u64 {
    match random.below(5) {
        0 => MAX_SUM,
        1 => MAX_SUM - u64::from(random.between(1, 8)),
        2 => MAX_SUM - u64::from(random.length(25)),
        3 => MAX_SUM + 1,
        _ => MAX_SUM + u64::from(random.between(1, 8)),
    }
}

/// Gives the slots this sum, or as much of it as they can hold.
pub(crate) fn spread(random: &mut Random, sum: u64, row: &mut [u32]) {
    let mut left = sum;
    let mut others = row.len() as u64;
    for slot in row {
        let even = left / others;
        others -= 1;
        let least = left.saturating_sub(others * MAX_SUM);
        let part = random.draw() % (2 * even + 1);
        let part = part.max(least).min(left).min(MAX_SUM);
        left -= part;
        *slot = part as u32;
    }
}

// Recordings.

/// The samples of a row; of a case outside the limits, those of the nearest one within.
struct Scale {
    length: u32,
    slots: u32,
}

impl Scale {
    fn new(case: &Case) -> Self {
        Self {
            length: case.slot_length.clamp(1, MAX_SLOT_LENGTH) as u32,
            slots: case.row.len().clamp(1, MAX_SLOTS) as u32,
        }
    }

    /// Below 2^27.
    fn span(&self) -> u32 {
        self.length * self.slots
    }

    fn time(&self, random: &mut Random) -> u32 {
        let last = self.span() - 1;
        match random.below(16) {
            0..=4 => random.below(self.span()),
            5..=8 => self.border(random),
            9..=10 => last - random.below(self.length),
            11..=12 => random.choose(&[last, last + 1 - self.length]),
            13 => random.choose(&[last + 1, last + 2, last + self.length]),
            14 => random.choose(&[1 << 31, u32::MAX - 1, u32::MAX]),
            _ => random.draw() as u32,
        }
    }

    /// The first sample of a slot or its last.
    fn border(&self, random: &mut Random) -> u32 {
        let first = self.length * random.below(self.slots);
        random.choose(&[first, first + self.length - 1])
    }
}

/// An energy for a row of this sum: what is left, one more, and others.
fn energy(random: &mut Random, sum: u64) -> u32 {
    let left = MAX_SUM.saturating_sub(sum) as u32;
    match random.below(16) {
        0 => 0,
        1 => 1,
        2 => 1 << 24,
        3 => u32::MAX,
        4 => left,
        5..=6 => left.saturating_add(1),
        7 => random.draw() as u32,
        _ => random.below(left / 8 + 1),
    }
}
