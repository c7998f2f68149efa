//! Wubraken, a pool of arrivals over memory that the host lends.
//!
//! The workers of a ray tracer put arrivals in and take the earliest out:
//!
//! ```
//! use wubraken::{Arrival, Pool, Put, Shape, Take};
//!
//! fn main() -> Result<(), wubraken::Refusal> {
//!     let shape = Shape { workers: 2, nodes: 100, buckets: 16, width: 48 };
//!     let mut pool = Pool::new(shape)?;
//!
//!     let arrival = Arrival { time: 5, path: 7, order: 1, distance: 3 };
//!     assert_eq!(pool.put(0, arrival, u64::MAX)?, Put::Stored(1));
//!
//!     if let Take::Took(taken) = pool.take(1, u64::MAX)? {
//!         assert_eq!((taken.time, taken.energy), (5, 1_864_135));
//!     }
//!     assert_eq!(pool.take(1, u64::MAX)?, Take::Empty);
//!     Ok(())
//! }
//! ```
//!
//! The number behind a call says by how many turns it may go on before others get
//! theirs. A worker's call can also begin by itself, with [`Pool::enqueue`] or
//! [`Pool::dequeue`], and go on by [`Pool::step`], one shared word a step; the host
//! deals the steps in any order. Whatever that order, the finished calls answer
//! like a plain priority queue: the linked library is proved, and this crate only
//! hands it slices.
//!
//! ```
//! use wubraken::{Arrival, Pool, Shape, Step};
//!
//! fn main() -> Result<(), wubraken::Refusal> {
//!     let shape = Shape { workers: 2, nodes: 100, buckets: 16, width: 48 };
//!     let mut pool = Pool::new(shape)?;
//!
//!     let arrival = Arrival { time: 5, path: 7, order: 1, distance: 3 };
//!     let ticket = pool.enqueue(0, arrival)?;
//!     while pool.step(0)? != Step::Stored(ticket) {}
//!
//!     pool.dequeue(1)?;
//!     let taken = loop {
//!         match pool.step(1)? {
//!             Step::Took(taken) => break taken,
//!             other => assert_eq!(other, Step::On),
//!         }
//!     };
//!     assert_eq!((taken.time, taken.energy), (5, 1_864_135));
//!     Ok(())
//! }
//! ```
//!
//! Times run to 2^32 − 1: the last bucket takes all that comes behind the others, too
//! (`examples/tail.rs`).
//!
//! The earliest arrival is that of lowest time. At equal times it is that of the lowest
//! order, the direct sound before a first reflection, and at equal orders the one whose put
//! began first, which has the lower ticket (`examples/equal_times.rs`). What a take may pass
//! over where calls overlap is in docs/READING.md.
//!
//! [`Pool::run_batch`] works through a batch, a piece of a turn file, in one call.
//! Threads that share a pool lock it for a step, or for a call
//! (`examples/threads.rs`).
//!
//! A [`Dealer`] deals the steps for the host, going round among the workers that have a
//! call in progress (`examples/dealer.rs`).
//!
//! An [`Echogram`] adds up the energies of what was taken, by their times
//! (`examples/echogram.rs`), and measures how they decay: [`Echogram::early_decay`],
//! [`Echogram::t20`] and [`Echogram::decay_curve`] (`examples/decay.rs`).
//!
//! The library is linked from the repository's `target/staticlib`, where
//! `tools/build` writes it, or from the directory `WUBRAKEN_LIB_DIR`.
#![warn(missing_docs)]

#[cfg(not(all(target_arch = "x86_64", target_pointer_width = "64")))]
compile_error!("the proved library is compiled for 64-bit x86-64");

mod answer;
mod dealer;
mod decay;
mod echogram;
mod limits;
mod pool;
mod refusal;
mod types;

pub mod raw;

pub use answer::{BatchEnd, Put, Step, Stop, Take, Taken};
pub use dealer::{Dealer, Dealt};
pub use echogram::Echogram;
pub use limits::OutsideLimits;
pub use pool::Pool;
pub use refusal::Refusal;
pub use types::{Arrival, Shape, Worker};

/// No line that [`Pool::run_batch`] writes is longer.
pub const LINE: usize = 89;
