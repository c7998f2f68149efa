//! What happened in a run.

use std::collections::BTreeSet;

use wubraken::{Arrival, Taken};

use crate::geometry::SAMPLES_PER_MILLISECOND;

/// A finished call; its moments count the starts and turns of all workers.
#[derive(Clone, Copy, Debug)]
pub struct Call {
    pub worker: u64,
    pub ticket: u64,
    pub start: usize,
    pub end: usize,
    pub event: Event,
}

#[derive(Clone, Copy, Debug)]
pub enum Event {
    Put(Arrival),
    Took(Taken),
    Empty,
}

/// The calls of a run by their end, and an account of it.
#[derive(Clone, Debug, Default)]
pub struct Trace {
    pub calls: Vec<Call>,
    pub turns: usize,
    /// The nodes that puts were given.
    pub nodes: BTreeSet<u64>,
    /// How often a put took the current bucket back.
    pub epochs: u64,
    /// Reflections that are too far (5): left out.
    pub too_far: usize,
    /// Puts that found no free node (12).
    pub no_node: usize,
    /// The slots of the echogram.
    pub row: Vec<u32>,
    /// Samples in a slot.
    pub slot_length: u64,
    /// Recordings past the row (14): left out.
    pub past_row: usize,
    /// Recordings by which the sum would pass 2^32 - 1 (15): left out.
    pub sum_too_large: usize,
}

impl Trace {
    pub fn put(&self) -> Vec<Arrival> {
        let put = |call: &Call| match call.event {
            Event::Put(arrival) => Some(arrival),
            _ => None,
        };
        self.calls.iter().filter_map(put).collect()
    }

    pub fn taken(&self) -> Vec<Taken> {
        let taken = |call: &Call| match call.event {
            Event::Took(taken) => Some(taken),
            _ => None,
        };
        self.calls.iter().filter_map(taken).collect()
    }

    pub fn empty_answers(&self) -> usize {
        let is_empty = |call: &&Call| matches!(call.event, Event::Empty);
        self.calls.iter().filter(is_empty).count()
    }

    /// So many slots of the echogram, with their milliseconds.
    pub fn length(&self, slots: u64) -> String {
        format!("{slots} slots, {} ms", self.milliseconds(slots))
    }

    pub fn milliseconds(&self, slots: u64) -> u64 {
        slots * self.slot_length / SAMPLES_PER_MILLISECOND
    }

    /// Puts that got a node which another had had before.
    pub fn reused(&self) -> usize {
        self.put().len() - self.nodes.len()
    }
}
