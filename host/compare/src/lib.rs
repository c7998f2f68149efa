//! Compares an engine, a program that reads a turn file and prints one line a
//! record, with the second program; holds what it prints to the promises on the
//! arrivals taken, and looks for an order of a plain queue in it.
#![forbid(unsafe_code)]

mod history;
mod line;
mod record;

pub mod arguments;
pub mod difference;
pub mod engine;
pub mod inputs;
pub mod linearizability;
pub mod seeded;
pub mod suite;
pub mod taken_list;
