//! The echoes of a shoebox hall, traced by workers that share one pool.
//!
//! A worker takes the earliest arrival, mirrors its source once more at each
//! wall it may, and puts the new arrivals back, until nothing is left. The
//! workers are simulated: one host deals their turns, at random from a seed, or by the
//! library's dealer, going round.
//!
//! An arrival is never earlier than the one it was reflected from ([`Hall`] says
//! why), but taking one and putting back its reflections are several calls. So
//! a worker alone, with nodes enough, takes in the order of time, at equal times the
//! lower order first, while of several workers one may take an arrival that lies
//! behind reflections which another has still in hand.
//! What is promised to all: each call takes effect at one moment between its
//! start and its end; so nothing is lost or taken twice, a reflection is taken
//! after its parent, and no take passes over an arrival that was in the pool,
//! earlier, all the while. docs/READING.md has the promises one by one.
//!
//! The report has a star at an arrival x that was taken after a later one, y: one of a
//! higher time, or of the same time and a higher order. By promises 2 and 4, x's put
//! had not ended when y's take started, or the takes of both overlap, and x was marked
//! and not yet answered when y's take ended.
//!
//! Each arrival that is taken is recorded in an echogram as it is answered. What is printed
//! of it, levels, early decay and T20 included, comes from the library.
#![forbid(unsafe_code)]

mod arguments;
mod bars;
mod curve;
mod decay;
mod geometry;
mod report;
mod trace;
mod tracer;

pub use arguments::{help, Arguments};
pub use curve::decay_curve;
pub use geometry::{Hall, Image, GREATEST_ORDER, SAMPLES_PER_SECOND};
pub use report::report;
pub use trace::{Call, Event, Trace};
pub use tracer::{trace, Interleaving, Job, SLOTS};
