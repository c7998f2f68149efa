//! Memory as C hands it in, and the calls on it.

use wubraken::raw::{self, wubraken_dequeue, wubraken_enqueue, wubraken_open, wubraken_step};
use wubraken::raw::{wubraken_deal, wubraken_deal_run, wubraken_narrow_deal};
use wubraken::raw::{wubraken_narrow_dequeue, wubraken_narrow_enqueue, wubraken_narrow_step};
use wubraken::{Arrival, Shape, Worker};

#[derive(Clone, Copy, Debug)]
pub enum Call {
    Open,
    Enqueue(u64, Arrival),
    Dequeue(u64),
    Step(u64),
    /// The narrow ones, with the most turns that follow.
    NarrowEnqueue(u64, Arrival, u64),
    NarrowDequeue(u64, u64),
    NarrowStep(u64, u64),
}

impl Call {
    /// What a worker may do, looking at all lent memory.
    pub fn of_worker(worker: u64, arrival: Arrival) -> [Self; 3] {
        [
            Self::Enqueue(worker, arrival),
            Self::Dequeue(worker),
            Self::Step(worker),
        ]
    }

    /// The same as narrow calls with so many turns.
    pub fn narrow_of_worker(worker: u64, arrival: Arrival, turns: u64) -> [Self; 3] {
        Self::of_worker(worker, arrival).map(|call| call.narrow(turns))
    }

    /// The narrow call of the same kind.
    pub fn narrow(self, turns: u64) -> Self {
        match self {
            Self::Open => self,
            Self::Enqueue(worker, arrival) | Self::NarrowEnqueue(worker, arrival, _) => {
                Self::NarrowEnqueue(worker, arrival, turns)
            }
            Self::Dequeue(worker) | Self::NarrowDequeue(worker, _) => {
                Self::NarrowDequeue(worker, turns)
            }
            Self::Step(worker) | Self::NarrowStep(worker, _) => Self::NarrowStep(worker, turns),
        }
    }
}

/// How turns are dealt.
#[derive(Clone, Copy, Debug, PartialEq, Eq)]
pub enum Deal {
    /// One turn, looking at all lent memory.
    One,
    /// At most so many of them.
    Run(u64),
    /// At most so many narrow ones.
    Narrow(u64),
}

impl Deal {
    /// All ways to deal at most so many.
    pub fn runs(turns: u64) -> [Self; 2] {
        [Self::Run(turns), Self::Narrow(turns)]
    }

    /// All ways to deal one.
    pub fn ones() -> [Self; 3] {
        [Self::One, Self::Run(1), Self::Narrow(1)]
    }
}

/// Pointers and lengths. A test may claim more than is there, where that is not to
/// be touched.
#[derive(Clone, Copy)]
pub struct Lent {
    pub store: *mut u64,
    pub words: usize,
    pub table: *mut Worker,
    pub records: usize,
}

impl Lent {
    pub fn of(store: &mut [u64], table: &mut [Worker]) -> Self {
        Self {
            words: store.len(),
            store: store.as_mut_ptr(),
            records: table.len(),
            table: table.as_mut_ptr(),
        }
    }

    pub fn call(self, shape: Shape, call: Call) -> raw::Answer {
        let (store, words, table, records) = (self.store, self.words, self.table, self.records);
        // SAFETY: two slices, or as much of them as may be touched.
        unsafe {
            match call {
                Call::Open => wubraken_open(shape, store, words, table, records),
                Call::Enqueue(worker, arrival) => {
                    wubraken_enqueue(shape, worker, arrival, store, words, table, records)
                }
                Call::Dequeue(worker) => {
                    wubraken_dequeue(shape, worker, store, words, table, records)
                }
                Call::Step(worker) => wubraken_step(shape, worker, store, words, table, records),
                Call::NarrowEnqueue(worker, arrival, turns) => wubraken_narrow_enqueue(
                    shape, worker, arrival, turns, store, words, table, records,
                ),
                Call::NarrowDequeue(worker, turns) => {
                    wubraken_narrow_dequeue(shape, worker, turns, store, words, table, records)
                }
                Call::NarrowStep(worker, turns) => {
                    wubraken_narrow_step(shape, worker, turns, store, words, table, records)
                }
            }
        }
    }

    pub fn deal(self, shape: Shape, dealer: u64, deal: Deal) -> raw::Dealt {
        let (store, words, table, records) = (self.store, self.words, self.table, self.records);
        // SAFETY: as above.
        unsafe {
            match deal {
                Deal::One => wubraken_deal(shape, dealer, store, words, table, records),
                Deal::Run(turns) => {
                    wubraken_deal_run(shape, dealer, turns, store, words, table, records)
                }
                Deal::Narrow(turns) => {
                    wubraken_narrow_deal(shape, dealer, turns, store, words, table, records)
                }
            }
        }
    }

    pub fn run_batch(self, shape: Shape, input: &[u8], out: &mut [u8]) -> raw::BatchEnd {
        let (bytes, room) = (input.len(), out.len());
        let (input, out) = (input.as_ptr(), out.as_mut_ptr());
        let (store, words, table, records) = (self.store, self.words, self.table, self.records);
        // SAFETY: two slices, and as above.
        unsafe {
            raw::wubraken_run_batch(shape, input, bytes, out, room, store, words, table, records)
        }
    }
}
