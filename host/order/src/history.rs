//! Calls as they begin and end.

use crate::find_order;

/// One call. Its moments count whatever happens in the history.
#[derive(Clone, Copy, Debug, PartialEq, Eq)]
pub struct Call<T> {
    /// Whose call it is.
    pub worker: usize,
    /// Its number among the calls.
    pub ticket: u64,
    /// A put or a take.
    pub kind: Kind<T>,
    /// The moment of its start.
    pub start: usize,
    /// None while the call is unfinished.
    pub end: Option<End<T>>,
}

/// What a call is.
#[derive(Clone, Copy, Debug, PartialEq, Eq)]
pub enum Kind<T> {
    /// Of an arrival.
    Put {
        /// Its time. The lowest is taken first.
        time: u32,
        /// Its reflection order. Of equal times the lowest is taken first, and of equal
        /// orders that of the lowest ticket.
        order: u32,
        /// What a take shows of it.
        shown: T,
    },
    /// Of the first arrival by time, order and ticket.
    Take,
}

/// How a call ended.
#[derive(Clone, Copy, Debug, PartialEq, Eq)]
pub struct End<T> {
    /// The moment of its last turn.
    pub at: usize,
    /// What that turn answered.
    pub answer: Answer<T>,
}

/// What ends a call.
#[derive(Clone, Copy, Debug, PartialEq, Eq)]
pub enum Answer<T> {
    /// The put with this ticket has ended.
    Stored(u64),
    /// A take got this arrival.
    Took(T),
    /// A take found none.
    Empty,
}

impl<T> Call<T> {
    /// The call as it was known after a moment, if it had begun.
    pub fn known_after(mut self, moment: usize) -> Option<Self> {
        self.end = self.end.filter(|end| end.at <= moment);
        (self.start <= moment).then_some(self)
    }
}

/// The calls of a pool since its opening, by their start.
#[derive(Clone, Debug)]
pub struct History<T> {
    calls: Vec<Call<T>>,
}

impl<T> Default for History<T> {
    fn default() -> Self {
        Self { calls: Vec::new() }
    }
}

impl<T: Copy + PartialEq> History<T> {
    /// All calls, by their start.
    pub fn calls(&self) -> &[Call<T>] {
        &self.calls
    }

    /// A worker begins a call.
    pub fn begin(&mut self, worker: usize, ticket: u64, kind: Kind<T>, start: usize) {
        self.calls.push(Call {
            worker,
            ticket,
            kind,
            start,
            end: None,
        });
    }

    /// A worker's call ends; it has one in progress.
    pub fn end(&mut self, worker: usize, at: usize, answer: Answer<T>) {
        let call = self.calls.iter_mut().rfind(|call| call.worker == worker);
        let call = call.expect("the worker has begun a call");
        assert!(call.end.is_none(), "the call has ended already");
        call.end = Some(End { at, answer });
    }

    /// Whether a worker has a call in progress.
    pub fn is_busy(&self, worker: usize) -> bool {
        let last = self.calls.iter().rfind(|call| call.worker == worker);
        last.map_or(false, |call| call.end.is_none())
    }

    /// Whether a plain queue gives the answers, in some order.
    pub fn has_order(&self) -> bool {
        find_order(&self.calls).is_some()
    }
}
