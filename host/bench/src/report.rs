//! Lines of the report.

use std::fmt;
use std::fs;
use std::thread;

/// What the numbers were measured on.
pub fn machine() -> String {
    let cores = thread::available_parallelism().map_or(1, usize::from);
    let described = fs::read_to_string("/proc/cpuinfo").unwrap_or_default();
    let model = described
        .lines()
        .filter(|line| line.starts_with("model name"))
        .find_map(|line| line.split_once(": "));
    let model = model.map_or("unknown", |(_, name)| name);
    format!("{cores} cores, {model}")
}

/// What a ratio is to be.
#[derive(Clone, Copy)]
pub enum Target {
    AtLeast(f64),
    AtMost(f64),
}

impl Target {
    /// As it is printed, with two decimals.
    fn is_met(self, ratio: f64) -> bool {
        let ratio = (100.0 * ratio).round() / 100.0;
        match self {
            Self::AtLeast(bound) => ratio >= bound,
            Self::AtMost(bound) => ratio <= bound,
        }
    }

    /// The target, and whether a ratio meets it.
    pub fn beside(self, ratio: f64) -> String {
        let verdict = if self.is_met(ratio) { "met" } else { "missed" };
        format!("{self}, {verdict}")
    }
}

impl fmt::Display for Target {
    fn fmt(&self, f: &mut fmt::Formatter<'_>) -> fmt::Result {
        match self {
            Self::AtLeast(bound) => write!(f, "at least {bound:?}"),
            Self::AtMost(bound) => write!(f, "at most {bound:?}"),
        }
    }
}

/// A part of the report, with the lines that say what is compared.
pub fn heading(title: &str, explanation: &str) {
    println!("\n{title}\n{explanation}");
}

/// Two contestants in some unit, and their ratio.
pub fn row(name: &str, [ours, other]: [f64; 2], unit: &str, ratio: f64, target: Target) {
    println!(
        "  {name:<36}{ours:>9.1} {unit:<4}{other:>9.1} {unit:<4} ratio {ratio:<6.2} ({})",
        target.beside(ratio)
    );
}

/// The same without a target.
pub fn compared(name: &str, [ours, other]: [f64; 2], unit: &str, ratio: f64) {
    println!(
        "  {name:<36}{ours:>9.1} {unit:<4}{other:>9.1} {unit:<4} ratio {ratio:<6.2} (no target)"
    );
}

/// A line for what could not be measured.
pub fn skipped(name: &str, why: &str) {
    println!("  {name:<36} skipped: {why}");
}
