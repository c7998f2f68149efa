//! A pool by the calls that look at all lent memory.
#![allow(unsafe_code)]

use wubraken::raw::{self, kind, wubraken_dequeue, wubraken_enqueue, wubraken_open, wubraken_step};
use wubraken::{Arrival, Shape, Worker};

/// A shape and its memory, with the worker that makes the calls.
pub struct WholeCalls {
    shape: Shape,
    store: Vec<u64>,
    table: Vec<Worker>,
}

/// Calls the library on the memory of a pool, which must not refuse.
macro_rules! call {
    ($pool:ident, $function:ident($($argument:expr),+)) => {{
        let (store, table) = ($pool.store.as_mut_ptr(), $pool.table.as_mut_ptr());
        let (words, records) = ($pool.store.len(), $pool.table.len());
        // SAFETY: pointers and lengths of two vectors.
        let answer: raw::Answer = unsafe { $function($($argument,)+ store, words, table, records) };
        assert_ne!(answer.kind, kind::REFUSED, "refused by {}", answer.number);
        answer.kind
    }};
}

impl WholeCalls {
    pub fn open(shape: Shape) -> Self {
        let words = shape.words().expect("the shape is within its limits");
        let mut pool = Self {
            shape,
            store: vec![0; words],
            table: vec![Worker::default(); shape.workers as usize],
        };
        call!(pool, wubraken_open(shape));
        pool
    }

    pub fn store(&self) -> &[u64] {
        &self.store
    }

    pub fn table(&self) -> &[Worker] {
        &self.table
    }

    pub fn enqueue(&mut self, arrival: Arrival) {
        call!(self, wubraken_enqueue(self.shape, 0, arrival));
    }

    pub fn dequeue(&mut self) {
        call!(self, wubraken_dequeue(self.shape, 0));
    }

    /// Whether the call goes on.
    pub fn step(&mut self) -> bool {
        call!(self, wubraken_step(self.shape, 0)) == kind::ON
    }
}
