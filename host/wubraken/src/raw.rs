//! The functions of `host/include/wubraken.h`, as C declares them.
//!
//! `wubraken_enqueue`, `wubraken_dequeue`, `wubraken_step`, `wubraken_deal` and
//! `wubraken_deal_run` look at every field of the memory they are handed. The narrow
//! ones look at what they need, and do the same on memory that only the pool writes to.
//!
//! They are unsafe for one reason only: pointers and lengths must be those of
//! slices that lie apart, but for two that are only read. [`Pool`](crate::Pool),
//! [`Dealer`](crate::Dealer) and [`Echogram`](crate::Echogram) hand in nothing else.

use crate::{Arrival, Shape, Worker};

/// Fields that an answer does not carry are 0.
#[repr(C)]
#[derive(Clone, Copy, Debug, Default, PartialEq, Eq)]
pub struct Answer {
    /// One of [`kind`].
    pub kind: u64,
    /// The refusal's number.
    pub number: u64,
    /// The call's place among all calls begun.
    pub ticket: u64,
    /// In samples.
    pub time: u64,
    /// As it was put in.
    pub path: u64,
    /// Reflections.
    pub order: u64,
    /// In metres.
    pub distance: u64,
    /// 2^24 / distance², rounded down; 0 at distance 0.
    pub energy: u64,
}

/// The kinds of answers.
pub mod kind {
    /// The pool is open and empty.
    pub const OPEN: u64 = 0;
    /// A call has begun: ticket.
    pub const BEGUN: u64 = 1;
    /// The call goes on.
    pub const ON: u64 = 2;
    /// An enqueue has ended: ticket.
    pub const STORED: u64 = 3;
    /// A dequeue has ended: time, path, order, distance, energy.
    pub const TOOK: u64 = 4;
    /// A dequeue has ended, and found the pool empty.
    pub const EMPTY: u64 = 5;
    /// The start or turn was refused, and did nothing: number.
    pub const REFUSED: u64 = 6;
}

/// How far a batch was worked through.
#[repr(C)]
#[derive(Clone, Copy, Debug, Default, PartialEq, Eq)]
pub struct BatchEnd {
    /// That of the last opening not refused; else as handed in.
    pub shape: Shape,
    /// Bytes of input worked through.
    pub read: u64,
    /// Bytes of lines written.
    pub written: u64,
    /// One of [`stop`], or the number of the refusal that stopped it.
    pub stop: u64,
}

/// Why a batch was left, if not by a refusal.
pub mod stop {
    /// All of the input is worked through.
    pub const DRAINED: u64 = 0;
    /// Fewer than [`LINE`](crate::LINE) bytes of room are left.
    pub const FULL: u64 = 1;
}

/// What dealt turns led to.
#[repr(C)]
#[derive(Clone, Copy, Debug, Default, PartialEq, Eq)]
pub struct Dealt {
    /// What the dealer remembers now: the worker served last; as handed in where no
    /// turn was dealt.
    pub dealer: u64,
    /// How many turns were dealt, one refused by 11 included.
    pub turns: u64,
    /// Of the last turn, or the refusal by which there was no other.
    pub answer: Answer,
}

/// What was measured of a row.
#[repr(C)]
#[derive(Clone, Copy, Debug, Default, PartialEq, Eq)]
pub struct Measured {
    /// 0, or the refusal's number.
    pub number: u64,
    /// What was measured; 0 where refused.
    pub value: u64,
}

extern "C" {
    /// Words to lend; 0 outside the limits.
    pub fn wubraken_words(shape: Shape) -> u64;

    /// Opens a pool.
    pub fn wubraken_open(
        shape: Shape,
        store: *mut u64,
        words: usize,
        table: *mut Worker,
        records: usize,
    ) -> Answer;

    /// A worker begins to put an arrival in.
    pub fn wubraken_enqueue(
        shape: Shape,
        worker: u64,
        arrival: Arrival,
        store: *mut u64,
        words: usize,
        table: *mut Worker,
        records: usize,
    ) -> Answer;

    /// A worker begins to take the earliest arrival out.
    pub fn wubraken_dequeue(
        shape: Shape,
        worker: u64,
        store: *mut u64,
        words: usize,
        table: *mut Worker,
        records: usize,
    ) -> Answer;

    /// A worker's call goes on by one shared word.
    pub fn wubraken_step(
        shape: Shape,
        worker: u64,
        store: *mut u64,
        words: usize,
        table: *mut Worker,
        records: usize,
    ) -> Answer;

    /// As `wubraken_enqueue`, narrow, and then at most so many turns.
    pub fn wubraken_narrow_enqueue(
        shape: Shape,
        worker: u64,
        arrival: Arrival,
        turns: u64,
        store: *mut u64,
        words: usize,
        table: *mut Worker,
        records: usize,
    ) -> Answer;

    /// As `wubraken_dequeue`, narrow, and then at most so many turns.
    pub fn wubraken_narrow_dequeue(
        shape: Shape,
        worker: u64,
        turns: u64,
        store: *mut u64,
        words: usize,
        table: *mut Worker,
        records: usize,
    ) -> Answer;

    /// As `wubraken_step`, narrow, and then at most so many turns.
    pub fn wubraken_narrow_step(
        shape: Shape,
        worker: u64,
        turns: u64,
        store: *mut u64,
        words: usize,
        table: *mut Worker,
        records: usize,
    ) -> Answer;

    /// Works through the records of a turn file.
    pub fn wubraken_run_batch(
        shape: Shape,
        input: *const u8,
        bytes: usize,
        out: *mut u8,
        room: usize,
        store: *mut u64,
        words: usize,
        table: *mut Worker,
        records: usize,
    ) -> BatchEnd;

    /// What a new dealer remembers: the last worker of the shape.
    pub fn wubraken_new_dealer(shape: Shape) -> u64;

    /// Deals one turn.
    pub fn wubraken_deal(
        shape: Shape,
        dealer: u64,
        store: *mut u64,
        words: usize,
        table: *mut Worker,
        records: usize,
    ) -> Dealt;

    /// Deals at most so many turns, until one ends a call.
    pub fn wubraken_deal_run(
        shape: Shape,
        dealer: u64,
        turns: u64,
        store: *mut u64,
        words: usize,
        table: *mut Worker,
        records: usize,
    ) -> Dealt;

    /// As `wubraken_deal_run`, by narrow turns.
    pub fn wubraken_narrow_deal(
        shape: Shape,
        dealer: u64,
        turns: u64,
        store: *mut u64,
        words: usize,
        table: *mut Worker,
        records: usize,
    ) -> Dealt;

    /// Clears the row of an echogram: 0, or the refusal's number.
    pub fn wubraken_clear_row(slot_length: u64, row: *mut u32, slots: usize) -> u64;

    /// Adds an energy to the slot of a time: 0, or the refusal's number.
    pub fn wubraken_record(
        slot_length: u64,
        time: u32,
        energy: u32,
        row: *mut u32,
        slots: usize,
    ) -> u64;

    /// A series of recordings, with an answer to each: 0, or the number of what
    /// refuses the whole series.
    pub fn wubraken_record_series(
        slot_length: u64,
        times: *const u32,
        times_count: usize,
        energies: *const u32,
        energies_count: usize,
        answers: *mut u8,
        answers_count: usize,
        row: *mut u32,
        slots: usize,
    ) -> u64;

    /// Early decay, in slots.
    pub fn wubraken_early_decay(row: *const u32, slots: usize) -> Measured;

    /// T20, in slots.
    pub fn wubraken_t20(row: *const u32, slots: usize) -> Measured;

    /// The level of a slot, in tenths of a decibel, or
    /// [`NO_LEVEL`](crate::Echogram::NO_LEVEL).
    pub fn wubraken_level(slot: u64, row: *const u32, slots: usize) -> Measured;

    /// The levels of all slots: 0, or the refusal's number.
    pub fn wubraken_decay_curve(
        row: *const u32,
        slots: usize,
        levels: *mut u16,
        places: usize,
    ) -> u64;
}
