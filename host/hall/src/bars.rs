//! The echogram as bars, a line a slot, with its levels.

use std::fmt::Write;

use crate::decay::{decibels, push_decay, Decay, LEVEL};
use crate::trace::Trace;

/// Of the strongest slot. The square of a bar is to the square of this as the energies
/// are: so weak slots show, beside strong ones.
const MOST_MARKS: u64 = 60;

/// All slots; then the sums, which are the same unless a recording was refused; then
/// early decay and T20.
pub fn push_echogram(text: &mut String, trace: &Trace) {
    let decay = Decay::of(trace);
    push_heading(text, trace);
    match &decay {
        Ok(decay) => push_bars(text, trace, &decay.levels),
        Err(_) => push_bars(text, trace, &vec![None; trace.row.len()]),
    }
    push_sums(text, trace);
    push_decay(text, trace, &decay);
}

fn push_heading(text: &mut String, trace: &Trace) {
    let _ = writeln!(
        text,
        "echogram: {} slots of {} ms; bars by the square root of the energy, the strongest slot has {MOST_MARKS}",
        trace.row.len(),
        trace.milliseconds(1)
    );
    let _ = writeln!(text, "{LEVEL}; a dash for none");
}

fn push_sums(text: &mut String, trace: &Trace) {
    let _ = writeln!(
        text,
        "sum of the slots: {}; of the energies taken: {}",
        sum(&trace.row),
        sum(trace.taken().iter().map(|taken| &taken.energy))
    );
    let _ = writeln!(
        text,
        "recordings refused: {} past the row (14), {} by a sum above 2^32 - 1 (15)",
        trace.past_row, trace.sum_too_large
    );
}

fn push_bars(text: &mut String, trace: &Trace, levels: &[Option<u16>]) {
    let strongest = trace.row.iter().copied().max().unwrap_or(0);
    let _ = writeln!(text, " slot     ms     energy  level");
    for ((slot, &energy), &level) in (0..).zip(&trace.row).zip(levels) {
        let (start, level) = (trace.milliseconds(slot), decibels(level));
        let bar = "#".repeat(marks(energy, strongest));
        let line = format!("{slot:>5}{start:>7} {energy:>10}{level:>7} {bar}");
        let _ = writeln!(text, "{}", line.trim_end());
    }
}

/// Rounded up: only an empty slot has none.
fn marks(energy: u32, strongest: u32) -> usize {
    let [energy, strongest] = [energy, strongest].map(u64::from);
    let square = MOST_MARKS * MOST_MARKS * energy;
    let reaches = |&marks: &u64| marks * marks * strongest >= square;
    (0..MOST_MARKS).find(reaches).unwrap_or(MOST_MARKS) as usize
}

fn sum<'a>(energies: impl IntoIterator<Item = &'a u32>) -> u64 {
    energies.into_iter().map(|&energy| u64::from(energy)).sum()
}
