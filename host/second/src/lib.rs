//! The arrival pool, written from its rules alone: a calendar queue whose calls advance by
//! single steps, over memory that the caller lends.
//!
//! The four entry points are [`open`], [`enqueue_start`], [`dequeue_start`] and
//! [`step`]. Each checks everything it is handed; a refused call leaves all lent
//! memory as it was. [`narrow_enqueue_start`], [`narrow_dequeue_start`] and
//! [`narrow_step`] do the same, but check only what they need, and can go on with
//! the call. [`run`] is the streaming turn-file program.
//!
//! [`deal`], [`deal_run`] and [`narrow_deal`] deal turns, going round among the workers.
//! [`clear_row`], [`record`] and [`record_series`] keep an echogram of what was taken;
//! [`early_decay`], [`t20`], [`level`] and [`decay_curve`] say how it decays.
//!
//! Names of the document and their names here: put is enqueue, take is dequeue,
//! turn is step, stamp is ticket, standing is the reclamation state, resting is
//! retired, in use is live, never used is unused, answer is response.
#![forbid(unsafe_code)]

mod dealer;
mod decay;
mod echogram;
mod energy;
mod lines;
mod narrow;
mod pool;
mod program;
mod ranges;
mod response;
mod shape;
mod starts;
mod steps;
mod store;
mod turn_file;
mod worker;

pub mod layout;
pub mod word;

pub use dealer::{deal, deal_run, narrow_deal, new_dealer, Dealt};
pub use decay::{decay_curve, early_decay, level, t20, NO_LEVEL};
pub use echogram::{clear_row, record, record_series, MAX_SLOTS, MAX_SLOT_LENGTH};
pub use energy::energy;
pub use lines::{push_line, Lines};
pub use narrow::{narrow_dequeue_start, narrow_enqueue_start, narrow_step};
pub use pool::{dequeue_start, enqueue_start, open, step};
pub use program::{run, run_standard, Program, LENT_RECORDS, LENT_WORDS};
pub use ranges::in_range;
pub use response::{Answer, Refusal, Response};
pub use shape::{Arrival, Shape};
pub use store::Reclamation;
pub use turn_file::{Record, Records};
pub use worker::{kind, stage, Worker};
