//! The puts and the takes of a history, as its lines show them. Moments are places
//! of records.

use order::{Answer, Kind};

use crate::history::{Fault, Opened, Run};
use crate::line::Taken;

/// The moment of what does not happen in the history.
pub const NEVER: usize = usize::MAX;

/// Time, then reflection order, then ticket.
pub type Key = (u64, u64, u64);

#[derive(Clone, Copy, Debug)]
pub struct Put {
    pub ticket: u64,
    pub shown: Taken,
    pub start: usize,
    pub first_turn: usize,
    pub end: usize,
}

#[derive(Clone, Copy, Debug)]
pub struct Take {
    pub ticket: u64,
    pub start: usize,
    pub first_turn: usize,
    pub end: usize,
    /// None for `empty`, and for a take that does not end.
    pub answer: Option<Taken>,
}

/// Both by their start.
#[derive(Clone, Debug, Default)]
pub struct Calls {
    pub puts: Vec<Put>,
    pub takes: Vec<Take>,
}

impl Put {
    pub fn key(&self) -> Key {
        (self.shown.time, self.shown.order, self.ticket)
    }
}

impl Take {
    pub fn is_empty(&self) -> bool {
        self.end != NEVER && self.answer.is_none()
    }
}

impl Calls {
    /// A put answers `stored` with its ticket, a take anything else.
    pub fn of(run: &Run<'_>, opened: &Opened) -> Result<Self, Fault> {
        let mut calls = Self::default();
        let each = opened.history.calls().iter().zip(&opened.first_turns);
        for (call, first_turn) in each {
            let (ticket, start) = (call.ticket, call.start);
            let first_turn = first_turn.unwrap_or(NEVER);
            let end = call.end.map_or(NEVER, |end| end.at);
            let answer = match (call.kind, call.end.map(|end| end.answer)) {
                (Kind::Put { .. }, Some(answer)) if answer != Answer::Stored(ticket) => {
                    return Err(run.fault(end, "not the answer of this put"));
                }
                (Kind::Take, Some(Answer::Stored(_))) => {
                    return Err(run.fault(end, "not the answer of a take"));
                }
                (_, Some(Answer::Took(taken))) => Some(taken),
                _ => None,
            };
            match call.kind {
                Kind::Put { shown, .. } => calls.puts.push(Put {
                    ticket,
                    shown,
                    start,
                    first_turn,
                    end,
                }),
                Kind::Take => calls.takes.push(Take {
                    ticket,
                    start,
                    first_turn,
                    end,
                    answer,
                }),
            }
        }
        Ok(calls)
    }
}
