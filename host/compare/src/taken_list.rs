//! Whether what an engine printed keeps the promises on the taken list, the
//! arrivals in the order in which takes answered them.
//!
//! From a turn file and its lines alone, and without a search for an order: for n
//! calls the check takes n log n steps, so that long files are checked, too. No line
//! says which arrival a take in progress holds, which of alike arrivals was answered,
//! or what is in the lists. Where the lines leave that open, the promises must hold
//! in some way; so no right run is refused. Some wrong ones are not found: an answer
//! counts as the lowest of its alike arrivals, and a take may hold an arrival, or a
//! put have linked one, from its first turn on, though it needs some turns for that.

mod alike;
mod calls;
mod first_end;
mod met;
mod promises;
mod seen;
mod takers;

use std::fmt;

pub use met::Met;
pub use promises::{Breach, Promise};

use crate::history::{Fault, Opened, Run};
use calls::Calls;
use seen::Seen;

#[derive(Clone, Debug)]
pub enum Violation {
    /// A line that cannot be.
    Fault(Fault),
    /// The promises not kept by the first history that breaks any.
    Broken(Vec<Broken>),
}

/// A promise that is not kept.
#[derive(Clone, Debug)]
pub struct Broken {
    pub promise: Promise,
    /// The first breach of it, by its record.
    pub breach: Breach,
    /// The calls of the breach, as text.
    calls: String,
}

impl fmt::Display for Violation {
    fn fmt(&self, f: &mut fmt::Formatter<'_>) -> fmt::Result {
        match self {
            Self::Fault(fault) => writeln!(f, "{fault}"),
            Self::Broken(broken) => broken.iter().try_for_each(|one| write!(f, "{one}")),
        }
    }
}

impl fmt::Display for Broken {
    fn fmt(&self, f: &mut fmt::Formatter<'_>) -> fmt::Result {
        let Breach { at, text, .. } = &self.breach;
        writeln!(f, "{} is broken at record {}", self.promise, at + 1)?;
        write!(f, "  {text}\ncalls:\n{}", self.calls)
    }
}

/// Checks every history of a turn file and its lines.
pub fn check(input: &[u8], output: &str) -> Result<Met, Violation> {
    let run = Run::read(input, output);
    let mut met = Met::default();
    for opened in run.histories().map_err(Violation::Fault)? {
        let calls = Calls::of(&run, &opened).map_err(Violation::Fault)?;
        let seen = Seen::new(opened.shape.nodes as usize, calls);
        let broken: Vec<Broken> = [
            first(
                Promise::NothingPassedOver,
                promises::nothing_earlier_is_passed_over(&seen),
            ),
            first(Promise::EmptyMeansEmpty, promises::empty_means_empty(&seen)),
            first(Promise::TwoTakes, promises::two_takes(&seen)),
            first(Promise::OnceEach, promises::once_each(&seen)),
        ]
        .into_iter()
        .flatten()
        .map(|(promise, breach)| Broken {
            promise,
            calls: describe(&run, &opened, &breach),
            breach,
        })
        .collect();
        if !broken.is_empty() {
            return Err(Violation::Broken(broken));
        }
        met += Met::of(&seen);
    }
    Ok(met)
}

fn first(promise: Promise, breaches: Vec<Breach>) -> Option<(Promise, Breach)> {
    let first = breaches.into_iter().min_by_key(|breach| breach.at)?;
    Some((promise, first))
}

/// The calls of a breach.
fn describe(run: &Run<'_>, opened: &Opened, breach: &Breach) -> String {
    let calls = opened.history.calls();
    let shown = breach.tickets.iter();
    shown
        .map(|&ticket| run.call(&calls[ticket as usize - 1]))
        .collect()
}
