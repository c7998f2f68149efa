//! Why a call is refused.

use std::error::Error;
use std::fmt;

use crate::{Arrival, Echogram, Shape};

/// The reasons, by their numbers. Of several the lowest is answered. What is
/// refused, a start, a turn, a recording or a measurement, changes nothing; turns
/// before it are done. (A dealt turn that 11 refuses moves its dealer on.) As text, a
/// refusal says what to do.
///
/// ```
/// let text = wubraken::Refusal::Busy.to_string();
/// assert_eq!(text, "refused by 9: the worker has a call in progress; step it to its end first");
/// ```
#[derive(Clone, Copy, Debug, PartialEq, Eq, PartialOrd, Ord, Hash)]
#[non_exhaustive]
#[repr(u8)]
pub enum Refusal {
    /// A field of the shape is outside its limits: [`Shape::check`] says which.
    BadShape = 1,
    /// The store or the table is too short for the shape; or the times, energies
    /// and answers of a series are not equally many.
    TooShort = 2,
    /// A word of the store or a field of the table is out of its range.
    OutOfRange = 3,
    /// The shape has no such worker.
    NoWorker = 4,
    /// Path, order or distance is outside its limits: [`Arrival::check`] says which.
    BadArrival = 5,
    /// A reserved number, not given since Q-1: every time has a bucket.
    TooLate = 6,
    /// A turn file has two letters that begin no record.
    UnknownMark = 7,
    /// A turn file ends inside a record.
    CutRecord = 8,
    /// The worker has a call in progress.
    Busy = 9,
    /// The worker has no call in progress.
    Idle = 10,
    /// Tickets or epochs are used up; the pool can be opened again.
    Exhausted = 11,
    /// Every node is in use or may still be stood on.
    NoNode = 12,
    /// The row of an echogram or its slot length is outside its limits,
    /// [`Echogram::MAX_SLOTS`] and [`Echogram::MAX_SLOT_LENGTH`]. Where a decay is
    /// measured it is the row, and the slot length does not count.
    BadRow = 13,
    /// The slot of the time lies past the row.
    PastRow = 14,
    /// The slot, or the sum of all slots, would pass 2^32 − 1, or the sum is above it.
    SumTooLarge = 15,
    /// No worker has a call in progress, and a dealer has no turn to deal.
    AllIdle = 16,
    /// Every slot of the row is zero, and there is no decay to measure.
    SilentRow = 17,
    /// The buffer has fewer places than the row has slots.
    ShortBuffer = 19,
}

impl Refusal {
    /// All, in the order of their numbers. There is no 18.
    pub const ALL: &'static [Refusal] = &[
        Refusal::BadShape,
        Refusal::TooShort,
        Refusal::OutOfRange,
        Refusal::NoWorker,
        Refusal::BadArrival,
        Refusal::TooLate,
        Refusal::UnknownMark,
        Refusal::CutRecord,
        Refusal::Busy,
        Refusal::Idle,
        Refusal::Exhausted,
        Refusal::NoNode,
        Refusal::BadRow,
        Refusal::PastRow,
        Refusal::SumTooLarge,
        Refusal::AllIdle,
        Refusal::SilentRow,
        Refusal::ShortBuffer,
    ];

    /// The number that a `no` line prints.
    #[inline]
    pub fn number(self) -> u64 {
        self as u64
    }

    /// The refusal of a number.
    #[inline]
    pub fn from_number(number: u64) -> Option<Self> {
        let mut all = Self::ALL.iter().copied();
        all.find(|refusal| refusal.number() == number)
    }
}

impl fmt::Display for Refusal {
    fn fmt(&self, f: &mut fmt::Formatter<'_>) -> fmt::Result {
        write!(f, "refused by {}: ", self.number())?;
        f.write_str(match self {
            Self::BadShape => return limits_of_a_shape(f),
            Self::TooShort => "the memory is too short: lend the words that the shape needs, and a record for each worker; or the times, energies and answers of a series are not equally many",
            Self::OutOfRange => "the memory is out of range; lend it as the pool left it, or open the pool again",
            Self::NoWorker => "there is no such worker; the first is 0, and the shape says how many there are",
            Self::BadArrival => return limits_of_an_arrival(f),
            Self::TooLate => "not given since Q-1; every time has a bucket",
            Self::UnknownMark => "the turn file has an unknown mark; records begin with OP, PU, TA or TU",
            Self::CutRecord => "the turn file ends inside a record; hand in the rest of it, too",
            Self::Busy => "the worker has a call in progress; step it to its end first",
            Self::Idle => "the worker has no call in progress; begin one first",
            Self::Exhausted => "the tickets or the epochs are used up; open the pool again",
            Self::NoNode => "no node is free; end calls in progress, take arrivals, or open the pool with more nodes",
            Self::BadRow => return limits_of_a_row(f),
            Self::PastRow => "the slot lies past the row; use more slots, or longer ones",
            Self::SumTooLarge => "the slot or the sum of all slots would pass 4294967295, or the sum is above it; clear the row, or use another",
            Self::AllIdle => "no worker has a call in progress; begin one first",
            Self::SilentRow => "every slot of the row is zero; record something first",
            Self::ShortBuffer => "the buffer is too short; lend a place for each slot of the row",
        })
    }
}

fn limits_of_a_shape(f: &mut fmt::Formatter<'_>) -> fmt::Result {
    write!(
        f,
        "the shape is outside its limits; workers 1 to {}, nodes 1 to {}, buckets 1 to {}, width 1 to {}",
        Shape::MAX_WORKERS,
        Shape::MAX_NODES,
        Shape::MAX_BUCKETS,
        Shape::MAX_WIDTH
    )
}

fn limits_of_an_arrival(f: &mut fmt::Formatter<'_>) -> fmt::Result {
    write!(
        f,
        "the arrival is outside its limits; path 0 to {}, order 0 to {}, distance 1 to {}",
        Arrival::MAX_PATH,
        Arrival::MAX_ORDER,
        Arrival::MAX_DISTANCE
    )
}

fn limits_of_a_row(f: &mut fmt::Formatter<'_>) -> fmt::Result {
    write!(
        f,
        "the row or the slot length is outside its limits; slots 1 to {}, slot length 1 to {}",
        Echogram::MAX_SLOTS,
        Echogram::MAX_SLOT_LENGTH
    )
}

impl Error for Refusal {}
