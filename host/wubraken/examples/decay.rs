//! How an echogram decays: early decay, T20, and the level of each slot.
//!
//!     cargo run --release --offline -p wubraken --example decay

use wubraken::{Echogram, Refusal};

/// Samples in a slot: ten milliseconds at 48 kHz.
const SLOT_LENGTH: u64 = 480;
const SAMPLES_PER_MILLISECOND: u64 = 48;

/// What a report shows: early decay and T20 in slots, and the curve, in tenths of a
/// decibel.
#[derive(Debug, PartialEq, Eq)]
pub struct Report {
    pub early_decay: u64,
    pub t20: u64,
    pub levels: Vec<Option<u16>>,
}

/// An energy every ten milliseconds, each half of the one before.
fn record(echogram: &mut Echogram) -> Result<(), Refusal> {
    for nth in 0..12 {
        echogram.record(480 * nth, 2_048 >> nth)?;
    }
    Ok(())
}

fn measure(echogram: &Echogram) -> Result<Report, Refusal> {
    let mut levels = vec![Echogram::NO_LEVEL; echogram.slots().len()];
    echogram.decay_curve(&mut levels)?;
    Ok(Report {
        early_decay: echogram.early_decay()?,
        t20: echogram.t20()?,
        levels: levels.into_iter().map(Echogram::level_from).collect(),
    })
}

pub fn run() -> Result<Report, Refusal> {
    let mut echogram = Echogram::new(14, SLOT_LENGTH)?;
    record(&mut echogram)?;
    measure(&echogram)
}

fn milliseconds(slots: u64) -> u64 {
    slots * SLOT_LENGTH / SAMPLES_PER_MILLISECOND
}

/// How far below the start; a dash, where there is no level.
pub fn in_decibels(level: Option<u16>) -> String {
    match level {
        Some(level) => format!("{}.{} dB below", level / 10, level % 10),
        None => "-".to_string(),
    }
}

pub fn main() -> Result<(), Refusal> {
    let report = run()?;
    for (name, slots) in [("early decay", report.early_decay), ("T20", report.t20)] {
        println!("{name}: {slots} slots, {} ms", milliseconds(slots));
    }
    for (slot, level) in (0..).zip(report.levels) {
        println!("{:>3} ms {:>15}", milliseconds(slot), in_decibels(level));
    }
    Ok(())
}
