//! The record kept for each worker.

/// One worker's record. Every content is possible in lent memory; the ranges
/// are checked by [`crate::in_range`].
#[derive(Clone, Copy, Debug, Default, PartialEq, Eq)]
pub struct Worker {
    /// Where the call stands; see [`stage`].
    pub stage: u64,
    /// Enqueue or dequeue; see [`kind`].
    pub kind: u64,
    pub own: u64,
    pub bucket: u64,
    /// The left word: a bucket for its head, buckets + node for a node's link.
    pub left: u64,
    pub right: u64,
    /// The link word seen.
    pub link_seen: u64,
    /// The current word seen.
    pub current_seen: u64,
    /// The ticket of the call.
    pub ticket: u64,
}

impl Worker {
    pub fn is_busy(&self) -> bool {
        self.stage != stage::IDLE
    }
}

/// The kinds of call.
pub mod kind {
    /// A put.
    pub const ENQUEUE: u64 = 0;
    /// A take.
    pub const DEQUEUE: u64 = 1;
}

/// The stages, by the document's numbers.
pub mod stage {
    pub const IDLE: u64 = 0;

    pub const SEARCH_HEAD: u64 = 1;
    pub const SEARCH_LINK: u64 = 2;
    pub const SEARCH_UNLINK: u64 = 3;

    pub const ENQUEUE_PREPARE: u64 = 4;
    pub const ENQUEUE_INSERT: u64 = 5;
    pub const ENQUEUE_COMPARE: u64 = 6;
    pub const ENQUEUE_LOWER: u64 = 7;

    pub const DEQUEUE_CURRENT: u64 = 8;
    pub const DEQUEUE_HEAD: u64 = 9;
    pub const DEQUEUE_LINK: u64 = 10;
    pub const DEQUEUE_MARK: u64 = 11;
    pub const DEQUEUE_ADVANCE: u64 = 12;
    pub const DEQUEUE_CONFIRM: u64 = 13;
}
