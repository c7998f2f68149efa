//! What the pool answers.

use crate::raw::{self, kind, stop};
use crate::{Arrival, Echogram, Refusal};

/// The arrival that a dequeue took out. In memory that was damaged a field may be
/// past its limit; what needs more than 32 bits is then `u32::MAX`.
#[derive(Clone, Copy, Debug, PartialEq, Eq, Hash)]
pub struct Taken {
    /// In samples.
    pub time: u32,
    /// As it was put in.
    pub path: u32,
    /// Reflections.
    pub order: u32,
    /// In metres.
    pub distance: u32,
    /// 2^24 / distance², rounded down; 0 at distance 0.
    pub energy: u32,
}

/// As it was put in, to be put in again.
impl From<Taken> for Arrival {
    fn from(taken: Taken) -> Self {
        Self {
            time: taken.time,
            path: taken.path,
            order: taken.order,
            distance: taken.distance,
        }
    }
}

/// What a step led to.
#[derive(Clone, Copy, Debug, PartialEq, Eq, Hash)]
#[must_use]
#[non_exhaustive]
pub enum Step {
    /// The call goes on.
    On,
    /// The enqueue with this ticket has ended.
    Stored(u64),
    /// The dequeue has ended with an arrival.
    Took(Taken),
    /// The dequeue has ended, and found the pool empty.
    Empty,
}

/// What a put led to.
#[derive(Clone, Copy, Debug, PartialEq, Eq, Hash)]
#[must_use]
pub enum Put {
    /// It has ended, with this ticket.
    Stored(u64),
    /// The turns are used up, and the call goes on: by
    /// [`Pool::run`](crate::Pool::run) or [`Pool::step`](crate::Pool::step).
    InProgress,
}

/// What a take led to.
#[derive(Clone, Copy, Debug, PartialEq, Eq, Hash)]
#[must_use]
pub enum Take {
    /// It has ended with an arrival.
    Took(Taken),
    /// It has ended, and found the pool empty.
    Empty,
    /// The turns are used up, and the call goes on: by
    /// [`Pool::run`](crate::Pool::run) or [`Pool::step`](crate::Pool::step).
    InProgress,
}

/// Why a batch was left.
#[derive(Clone, Copy, Debug, PartialEq, Eq, Hash)]
#[non_exhaustive]
pub enum Stop {
    /// All of the input is worked through.
    Drained,
    /// Fewer than [`LINE`](crate::LINE) bytes of room are left, with or without input.
    Full,
    /// What follows is no record: [`Refusal::UnknownMark`], or
    /// [`Refusal::CutRecord`], which may only mean that the rest is to come. No
    /// line is written for it.
    Halted(Refusal),
}

/// How far a batch was worked through.
#[derive(Clone, Copy, Debug, PartialEq, Eq, Hash)]
#[must_use]
pub struct BatchEnd {
    /// Bytes of input worked through.
    pub read: usize,
    /// Bytes of lines written.
    pub written: usize,
    /// Why it was left.
    pub stop: Stop,
}

/// The answer to an opening.
pub(crate) fn opened(answer: &raw::Answer) -> Result<(), Refusal> {
    match answer.kind {
        kind::OPEN => Ok(()),
        _ => Err(refused(answer)),
    }
}

/// The answer to a start: the call's ticket.
#[inline]
pub(crate) fn begun(answer: &raw::Answer) -> Result<u64, Refusal> {
    match answer.kind {
        kind::BEGUN => Ok(answer.ticket),
        _ => Err(refused(answer)),
    }
}

/// The answer to a step.
#[inline]
pub(crate) fn stepped(answer: &raw::Answer) -> Result<Step, Refusal> {
    match answer.kind {
        kind::ON => Ok(Step::On),
        kind::STORED => Ok(Step::Stored(answer.ticket)),
        kind::TOOK => Ok(Step::Took(taken(answer))),
        kind::EMPTY => Ok(Step::Empty),
        _ => Err(refused(answer)),
    }
}

/// The answer to a start and turns of an enqueue.
#[inline]
pub(crate) fn put(answer: &raw::Answer) -> Result<Put, Refusal> {
    match answer.kind {
        kind::STORED => Ok(Put::Stored(answer.ticket)),
        kind::BEGUN | kind::ON => Ok(Put::InProgress),
        _ => Err(refused(answer)),
    }
}

/// The answer to a start and turns of a dequeue.
#[inline]
pub(crate) fn take(answer: &raw::Answer) -> Result<Take, Refusal> {
    match answer.kind {
        kind::TOOK => Ok(Take::Took(taken(answer))),
        kind::EMPTY => Ok(Take::Empty),
        kind::BEGUN | kind::ON => Ok(Take::InProgress),
        _ => Err(refused(answer)),
    }
}

/// The answer to a step of no worker: what is refused before that.
pub(crate) fn audited(answer: &raw::Answer) -> Result<(), Refusal> {
    match refused(answer) {
        Refusal::NoWorker => Ok(()),
        refusal => Err(refusal),
    }
}

/// The answer to a batch.
pub(crate) fn ended(end: raw::BatchEnd) -> BatchEnd {
    BatchEnd {
        read: end.read as usize,
        written: end.written as usize,
        stop: match end.stop {
            stop::DRAINED => Stop::Drained,
            stop::FULL => Stop::Full,
            number => Stop::Halted(refusal(number)),
        },
    }
}

/// What an echogram answers: 0, or the number of a refusal.
#[inline]
pub(crate) fn accepted(number: u64) -> Result<(), Refusal> {
    match number {
        0 => Ok(()),
        number => Err(refusal(number)),
    }
}

/// What was measured of a row.
#[inline]
pub(crate) fn measured(measured: raw::Measured) -> Result<u64, Refusal> {
    accepted(measured.number).map(|()| measured.value)
}

/// The level that was measured of a slot.
#[inline]
pub(crate) fn level(measured: raw::Measured) -> Result<Option<u16>, Refusal> {
    let stored = self::measured(measured)?.try_into();
    let stored = stored.unwrap_or_else(|_| another_library());
    Ok(Echogram::level_from(stored))
}

#[inline]
fn taken(answer: &raw::Answer) -> Taken {
    Taken {
        time: in_32_bits(answer.time),
        path: in_32_bits(answer.path),
        order: in_32_bits(answer.order),
        distance: in_32_bits(answer.distance),
        energy: in_32_bits(answer.energy),
    }
}

/// A field of an arrival; the most that there is, if it needs more.
#[inline]
fn in_32_bits(field: u64) -> u32 {
    field.try_into().unwrap_or(u32::MAX)
}

#[inline]
fn refused(answer: &raw::Answer) -> Refusal {
    match answer.kind {
        kind::REFUSED => refusal(answer.number),
        _ => another_library(),
    }
}

#[inline]
fn refusal(number: u64) -> Refusal {
    Refusal::from_number(number).unwrap_or_else(|| another_library())
}

/// The proved library gives no other answer.
#[cold]
#[inline(never)]
fn another_library() -> ! {
    panic!("the linked library is not the one of this crate")
}
