//! Runs in several halls, and what their calls were.

use hall::{trace, Arguments, Call, Event, Hall, Interleaving, Job, Trace};
use wubraken::Taken;

/// 20, 15 and 10 metres, source and listener both in the middle: an image lies as many
/// lengths, widths and heights away as it is mirrored along them. So the sound of the front
/// wall, 20 metres, comes with that of ceiling and floor, 2 × 10.
pub const MIDDLE: Hall = Hall {
    size: [2_000, 1_500, 1_000],
    source: [1_000, 750, 500],
    listener: [1_000, 750, 500],
};

/// A listener in the corner hears eight images at once: the three walls there mirror the
/// corner on to itself.
pub fn corner() -> Hall {
    Hall {
        listener: [0; 3],
        ..Arguments::default().job().hall
    }
}

/// With arrivals of equal time, of equal and other orders.
pub fn halls_with_equal_times() -> [Hall; 2] {
    [MIDDLE, corner()]
}

/// Milliseconds: all but the tail is empty, some is behind, nothing is.
const SPANS: [u64; 3] = [1, 100, 1_000];

/// At random, and by a dealer.
pub fn interleavings(seeds: u64) -> impl Iterator<Item = Interleaving> {
    (0..seeds)
        .map(Interleaving::AtRandom)
        .chain([Interleaving::Dealt])
}

/// As the arguments say, in another hall.
pub fn run_in(hall: Hall, arguments: Arguments) -> Trace {
    let job = Job {
        hall,
        ..arguments.job()
    };
    trace(&job).unwrap()
}

/// Few and many workers and nodes, with several orders of turns and several spans.
pub fn runs_in(hall: Hall) -> Vec<Trace> {
    let mut runs = Vec::new();
    for workers in [1, 2, 3, 8, 64] {
        for nodes in [1, 5, 12, 500] {
            for (interleaving, span) in interleavings(6).zip(SPANS.into_iter().cycle()) {
                let arguments = Arguments {
                    interleaving,
                    workers,
                    nodes,
                    order: 3,
                    span,
                    ..Arguments::default()
                };
                runs.push(run_in(hall, arguments));
            }
        }
    }
    runs
}

/// An arrival of the taken list, with the calls that put and took it.
#[derive(Clone, Copy)]
pub struct Listed<'a> {
    pub arrival: Taken,
    pub put: &'a Call,
    pub take: &'a Call,
}

impl Listed<'_> {
    /// By which the pool orders: time, order, and the ticket of the put.
    pub fn key(&self) -> (u32, u32, u64) {
        (self.arrival.time, self.arrival.order, self.put.ticket)
    }
}

pub fn taken_list(trace: &Trace) -> Vec<Listed<'_>> {
    let listed = |take| match take {
        &Call {
            event: Event::Took(arrival),
            ..
        } => Some(Listed {
            arrival,
            put: put_of(trace, arrival.path),
            take,
        }),
        _ => None,
    };
    trace.calls.iter().filter_map(listed).collect()
}

/// Each path is put once.
pub fn put_of(trace: &Trace, path: u32) -> &Call {
    let is_it = |call: &&Call| matches!(call.event, Event::Put(put) if put.path == path);
    trace.calls.iter().find(is_it).unwrap()
}
