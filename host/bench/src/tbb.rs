//! The hold model on oneTBB's concurrent_priority_queue, by tbb_hold.cpp.

use std::path::Path;
use std::process::Command;
use std::time::Duration;

use crate::hold_model::Model;

/// How long the holds of each run take, and the fold of the times that the first
/// thread took.
pub fn hold(
    program: &Path,
    model: &Model,
    runs: usize,
    threads: usize,
) -> Option<(Vec<Duration>, u64)> {
    let numbers = [
        model.pending as u64,
        model.holds as u64,
        model.spread.into(),
        model.shape.span().into(),
        runs as u64,
        threads as u64,
    ];
    let words = numbers.iter().map(u64::to_string);
    let output = Command::new(program).args(words).output().ok()?;
    let text = String::from_utf8(output.stdout).ok()?;
    let numbers: Vec<u64> = text
        .split_whitespace()
        .map(|word| word.parse().ok())
        .collect::<Option<_>>()?;
    let (&fold, times) = numbers.split_last()?;
    let times = times.iter().map(|&time| Duration::from_nanos(time));
    Some((times.collect(), fold))
}
