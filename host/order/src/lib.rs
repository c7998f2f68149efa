//! Histories of overlapping calls on a pool, and the search for an order in which
//! a plain queue gives their answers.
//!
//! `T` is what a take shows of its arrival: its ticket, or what is printed of it.
#![forbid(unsafe_code)]
#![warn(missing_docs)]

mod history;
mod search;
mod set;

pub use history::{Answer, Call, End, History, Kind};
pub use search::find_order;
