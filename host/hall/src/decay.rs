//! How the sound of a run decays, as the library has it.

use std::fmt::Write;

use wubraken::{Echogram, Refusal};

use crate::trace::Trace;

/// Early decay, T20 and the levels of a row.
#[derive(Clone, Debug, PartialEq, Eq)]
pub struct Decay {
    /// In slots.
    pub early_decay: u64,
    /// In slots.
    pub t20: u64,
    /// Of each slot: tenths of a decibel below the start.
    pub levels: Vec<Option<u16>>,
}

impl Decay {
    /// A row in which nothing was recorded is refused (17).
    pub fn of(trace: &Trace) -> Result<Self, Refusal> {
        let echogram = Echogram::resume(&trace.row[..], trace.slot_length);
        let mut levels = vec![Echogram::NO_LEVEL; trace.row.len()];
        echogram.decay_curve(&mut levels)?;
        Ok(Self {
            early_decay: echogram.early_decay()?,
            t20: echogram.t20()?,
            levels: levels.into_iter().map(Echogram::level_from).collect(),
        })
    }

    /// The first slot from which on a tenth of the energy is left, or less.
    pub fn first_at_a_tenth(&self) -> u64 {
        self.early_decay / 6
    }
}

/// Early decay and T20; or why there are none.
pub fn push_decay(text: &mut String, trace: &Trace, decay: &Result<Decay, Refusal>) {
    let decay = match decay {
        Ok(decay) => decay,
        Err(refusal) => {
            let _ = writeln!(text, "no early decay and no T20: {}", reason(*refusal));
            return;
        }
    };
    for (name, slots, counts) in [
        ("early decay", decay.early_decay, EARLY_DECAY),
        ("T20", decay.t20, T20),
    ] {
        let _ = writeln!(text, "{name}: {} ({counts})", trace.length(slots));
    }
    let _ = writeln!(text, "{CROSSINGS}");
    if let Some(cut) = cut(trace) {
        let _ = writeln!(text, "{cut}");
    }
}

// What is measured, in words.
pub const LEVEL: &str =
    "level: the sum from a slot to the end, rounded down to 1,024ths of all, in dB";
pub const EARLY_DECAY: &str = "6 times the first crossing of -10 dB";
pub const T20: &str = "3 times the way from the first crossing of -5 dB to that of -25 dB";
/// So that nobody takes them for the standard's.
pub const CROSSINGS: &str =
    "crossings: of sums, not of rounded levels; in whole slots; no line is fitted (ISO 3382 fits one)";

/// A row that lacks something decays as what it has.
pub fn cut(trace: &Trace) -> Option<String> {
    match trace.past_row + trace.sum_too_large {
        0 => None,
        refused => Some(format!(
            "decay: only of what was recorded; {refused} recordings were refused"
        )),
    }
}

/// In words, for a row that has no decay.
pub fn reason(refusal: Refusal) -> String {
    match refusal {
        Refusal::SilentRow => "nothing was recorded (17)".to_string(),
        other => other.to_string(),
    }
}

/// A level in decibels; a dash for none.
pub fn decibels(level: Option<u16>) -> String {
    match level {
        None => "-".to_string(),
        Some(0) => "0.0".to_string(),
        Some(tenths) => format!("-{}.{}", tenths / 10, tenths % 10),
    }
}
