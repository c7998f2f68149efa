//! Whether what an engine printed has an order of a plain queue.

use std::fmt::{self, Write};

use order::find_order;

use crate::history::{Fault, Opened, Run};
use crate::line::Taken;

type Call = order::Call<Taken>;

/// What has been checked.
#[derive(Clone, Copy, Debug, Default, PartialEq, Eq)]
pub struct Checked {
    pub histories: usize,
    pub calls: usize,
}

#[derive(Clone, Debug)]
pub enum Violation {
    /// A line that cannot be, whatever the order.
    Fault(Fault),
    /// A history without an order, cut after the first record at which it has
    /// none; and a text to read.
    NoOrder {
        opening: usize,
        last: usize,
        text: String,
    },
}

impl fmt::Display for Violation {
    fn fmt(&self, f: &mut fmt::Formatter<'_>) -> fmt::Result {
        match self {
            Self::Fault(fault) => writeln!(f, "{fault}"),
            Self::NoOrder { text, .. } => f.write_str(text),
        }
    }
}

/// Checks every history of a turn file and its lines.
pub fn check(input: &[u8], output: &str) -> Result<Checked, Violation> {
    let run = Run::read(input, output);
    let mut checked = Checked::default();
    for opened in run.histories().map_err(Violation::Fault)? {
        checked.histories += 1;
        checked.calls += opened.history.calls().len();
        if !opened.history.has_order() {
            return Err(no_order(&run, &opened));
        }
    }
    Ok(checked)
}

fn no_order(run: &Run<'_>, opened: &Opened) -> Violation {
    let last = first_without_order(opened.history.calls());
    Violation::NoOrder {
        opening: opened.opening,
        last,
        text: describe(run, opened, last),
    }
}

/// The first end of a call after which there is no order. Before it there is
/// one, and after it there never is one again.
fn first_without_order(calls: &[Call]) -> usize {
    let ends = calls.iter().filter_map(|call| call.end);
    let mut ends: Vec<usize> = ends.map(|end| end.at).collect();
    ends.sort_unstable();
    let first = ends.partition_point(|&place| find_order(&known_after(calls, place)).is_some());
    ends[first]
}

fn known_after(calls: &[Call], place: usize) -> Vec<Call> {
    let calls = calls.iter();
    calls.filter_map(|call| call.known_after(place)).collect()
}

/// The calls and then the records of a history up to a place.
fn describe(run: &Run<'_>, opened: &Opened, last: usize) -> String {
    let mut text = format!(
        "no order of a plain queue gives the answers of records {} to {}\n\
         (without the last of them there is one)\ncalls:\n",
        opened.opening + 1,
        last + 1
    );
    for call in known_after(opened.history.calls(), last) {
        text.push_str(&run.call(&call));
    }
    text.push_str("records:\n");
    let mut place = opened.opening;
    while place <= last {
        let shown = (run.record(place), run.line(place));
        let same = (place..=last).take_while(|&at| (run.record(at), run.line(at)) == shown);
        let count = same.count();
        let numbers = match count {
            1 => format!("{}", place + 1),
            _ => format!("{} to {}", place + 1, place + count),
        };
        let _ = writeln!(text, "  {numbers:<14}{:<26}{}", shown.0, shown.1);
        place += count;
    }
    text
}
