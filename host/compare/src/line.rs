//! The lines that an engine prints.

use order::Answer;
use second::Arrival;

/// One printed line.
#[derive(Clone, Copy, Debug, PartialEq, Eq)]
pub enum Line {
    Open,
    Begun(u64),
    On,
    Ended(Answer<Taken>),
    No(u64),
}

/// What a take prints of its arrival.
#[derive(Clone, Copy, Debug, PartialEq, Eq, Hash)]
pub struct Taken {
    pub time: u64,
    pub path: u64,
    pub order: u64,
    pub energy: u64,
}

impl Taken {
    /// What must be printed of an arrival.
    pub fn of(arrival: Arrival) -> Self {
        let distance = u64::from(arrival.distance);
        Self {
            time: arrival.time.into(),
            path: arrival.path.into(),
            order: arrival.order.into(),
            energy: (1u64 << 24).checked_div(distance * distance).unwrap_or(0),
        }
    }
}

impl Line {
    /// Reads a line without its end; none for a text that no engine may print.
    pub fn parse(text: &str) -> Option<Self> {
        let mut words = text.split(' ');
        let name = words.next()?;
        let numbers: Vec<u64> = words.map(number).collect::<Option<_>>()?;
        match (name, numbers.as_slice()) {
            ("open", []) => Some(Self::Open),
            ("on", []) => Some(Self::On),
            ("empty", []) => Some(Self::Ended(Answer::Empty)),
            ("begun", &[ticket]) => Some(Self::Begun(ticket)),
            ("stored", &[ticket]) => Some(Self::Ended(Answer::Stored(ticket))),
            ("no", &[refusal]) => Some(Self::No(refusal)),
            ("took", &[time, path, order, energy]) => Some(Self::Ended(Answer::Took(Taken {
                time,
                path,
                order,
                energy,
            }))),
            _ => None,
        }
    }
}

/// Digits only, and no needless zero in front.
fn number(text: &str) -> Option<u64> {
    let number: u64 = text.parse().ok()?;
    (number.to_string() == text).then_some(number)
}
