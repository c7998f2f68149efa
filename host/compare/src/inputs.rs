//! The turn files that are always run: those written by hand, one with every distance,
//! and broken ones.

use schedule::script::{open, put, take, turn};
use schedule::{by_hand, distances, orders, Script};

/// One turn file.
#[derive(Clone, Debug)]
pub struct Input {
    pub name: String,
    pub bytes: Vec<u8>,
    /// What it prints, if that is known by hand.
    pub output: Option<String>,
    /// The seed it comes from, if any.
    pub seed: Option<u64>,
    /// Whether its histories are small enough to look for an order.
    pub is_small: bool,
}

impl Input {
    fn of(name: impl Into<String>, script: &Script) -> Self {
        Self::known(name, script.bytes(), script.output())
    }

    fn known(name: impl Into<String>, bytes: Vec<u8>, output: String) -> Self {
        Self {
            output: Some(output),
            ..Self::unknown(name, bytes)
        }
    }

    fn unknown(name: impl Into<String>, bytes: Vec<u8>) -> Self {
        Self {
            name: name.into(),
            bytes,
            output: None,
            seed: None,
            is_small: true,
        }
    }
}

pub fn worked_example() -> Vec<Input> {
    let (bytes, output) = by_hand::WORKED_EXAMPLE;
    vec![Input::known(
        "worked example",
        bytes.to_vec(),
        output.to_string(),
    )]
}

/// The cases to check by hand, the two takers among them.
pub fn by_hand() -> Vec<Input> {
    let cases = by_hand::cases().into_iter();
    cases
        .map(|(name, script)| Input::of(name, &script))
        .collect()
}

/// A put and a take at every distance, the energies known by multiplication.
pub fn every_distance() -> Vec<Input> {
    let script = distances::every_distance();
    vec![Input {
        is_small: false,
        ..Input::of("every distance", &script)
    }]
}

/// The orders that catch an engine out.
pub fn orders() -> Vec<Input> {
    let cases = orders::cases().into_iter();
    cases
        .map(|(name, script)| Input::of(name, &script))
        .collect()
}

/// A file with every kind of record, answered and refused.
fn every_kind() -> Script {
    Script::default()
        .refused(turn(0), 1)
        .refused(open(65, 1, 1, 1), 1)
        .opened(2, 1, 1, 1)
        .put(0, 0)
        .refused(put(1, 0), 12)
        .turns(0, 4)
        .take(1)
        .refused(take(0), 9)
        .end(0, 1, "stored 1")
        .end(1, 3, "on")
        .refused(turn(0), 10)
}

/// That file cut at every byte: the records before the cut, and 8 inside one.
pub fn cuts() -> Vec<Input> {
    let script = every_kind();
    let bytes = script.bytes();
    let ends = ends(&script);
    (0..=bytes.len())
        .map(|length| {
            let whole = ends.iter().take_while(|&&end| end <= length).count();
            let lines = script.lines()[..whole].iter();
            let mut output: String = lines.map(|line| format!("{line}\n")).collect();
            if length != 0 && !ends.contains(&length) {
                output.push_str("no 8\n");
            }
            let name = format!("cut after {length} bytes");
            Input::known(name, bytes[..length].to_vec(), output)
        })
        .collect()
}

/// That file with one bit of one mark flipped, for every bit of every mark.
pub fn marks() -> Vec<Input> {
    let script = every_kind();
    let mut starts = ends(&script);
    starts.insert(0, 0);
    starts.pop();
    let mut inputs = Vec::new();
    for start in starts {
        for bit in 0..16 {
            let mut bytes = script.bytes();
            bytes[start + bit / 8] ^= 1 << (bit % 8);
            let name = format!("bit {bit} of the mark at byte {start}");
            inputs.push(Input::unknown(name, bytes));
        }
    }
    inputs
}

/// Where each record ends.
fn ends(script: &Script) -> Vec<usize> {
    let mut bytes = Vec::new();
    let mut ends = Vec::new();
    for record in script.records() {
        record.encode(&mut bytes);
        ends.push(bytes.len());
    }
    ends
}
