//! What is handed to the pool: shapes, arrivals and workers' records.

use crate::raw;

/// What a pool is made for. [`Shape::check`] says what is outside its limits.
#[repr(C)]
#[derive(Clone, Copy, Debug, Default, PartialEq, Eq, Hash)]
pub struct Shape {
    /// 1 to [`Shape::MAX_WORKERS`].
    pub workers: u64,
    /// 1 to [`Shape::MAX_NODES`]: the arrivals that it can hold.
    pub nodes: u64,
    /// 1 to [`Shape::MAX_BUCKETS`].
    pub buckets: u64,
    /// 1 to [`Shape::MAX_WIDTH`]: samples of time in one bucket. The last bucket
    /// takes all later times, too.
    pub width: u64,
}

impl Shape {
    /// The most workers.
    pub const MAX_WORKERS: u64 = 64;
    /// The most nodes.
    pub const MAX_NODES: u64 = 4_096;
    /// The most buckets.
    pub const MAX_BUCKETS: u64 = 256;
    /// The most samples in a bucket.
    pub const MAX_WIDTH: u64 = 65_535;

    /// Words to lend; none if the shape is outside its limits. The records to
    /// lend are as many as the workers.
    ///
    /// ```
    /// use wubraken::Shape;
    ///
    /// let shape = Shape { workers: 1, nodes: 4, buckets: 2, width: 10 };
    /// assert_eq!(shape.words(), Some(3 + 2 + 8 * 4));
    /// assert_eq!(Shape { width: 0, ..shape }.words(), None);
    /// ```
    pub fn words(self) -> Option<usize> {
        // SAFETY: numbers only.
        match unsafe { raw::wubraken_words(self) } {
            0 => None,
            words => Some(words as usize),
        }
    }

    /// The bucket of a time; none if the shape is outside its limits. The last
    /// bucket has all times from (buckets − 1) × width on, so its list grows with
    /// the arrivals that come late.
    ///
    /// ```
    /// use wubraken::Shape;
    ///
    /// let shape = Shape { workers: 1, nodes: 4, buckets: 2, width: 10 };
    /// let buckets = [9, 10, 19, 20, u32::MAX].map(|time| shape.bucket_of(time));
    /// assert_eq!(buckets, [Some(0), Some(1), Some(1), Some(1), Some(1)]);
    /// assert_eq!(Shape { width: 0, ..shape }.bucket_of(5), None);
    /// ```
    pub fn bucket_of(self, time: u32) -> Option<u64> {
        self.check().ok()?;
        Some((u64::from(time) / self.width).min(self.buckets - 1))
    }
}

/// An arrival to put in. [`Arrival::check`] says what is outside its limits.
///
/// Of two in a pool the earlier has the lower time, at equal times the lower order, and at
/// equal orders the lower ticket, that of the put that began first. Path and distance do
/// not count.
#[repr(C)]
#[derive(Clone, Copy, Debug, Default, PartialEq, Eq, Hash)]
pub struct Arrival {
    /// In samples, 0 to 2^32 − 1. [`Shape::bucket_of`] says where it lies.
    pub time: u32,
    /// 0 to [`Arrival::MAX_PATH`].
    pub path: u32,
    /// Reflections, 0 to [`Arrival::MAX_ORDER`].
    pub order: u32,
    /// In metres, 1 to [`Arrival::MAX_DISTANCE`].
    pub distance: u32,
}

impl Arrival {
    /// The greatest path.
    pub const MAX_PATH: u32 = 65_535;
    /// The most reflections.
    pub const MAX_ORDER: u32 = 63;
    /// The most metres.
    pub const MAX_DISTANCE: u32 = 1_024;
}

/// A worker's record: where its call stands. A host lends it and need not look
/// inside. The default is idle.
///
/// A node's number is below `nodes`; `nodes` itself stands for the end of a
/// list. A cell is a bucket's head, by the bucket's number, or a node's link, by
/// the node's number behind the buckets.
#[repr(C)]
#[derive(Clone, Copy, Debug, Default, PartialEq, Eq, Hash)]
pub struct Worker {
    /// 0 idle, 1 to 3 search, 4 to 7 enqueue, 8 to 13 dequeue.
    pub stage: u64,
    /// 0 enqueue, 1 dequeue.
    pub kind: u64,
    /// The node being put in, or marked to be taken.
    pub own: u64,
    /// The bucket at work in.
    pub bucket: u64,
    /// The cell before the place searched for.
    pub left: u64,
    /// The node behind that place, or looked at by a dequeue; or the end.
    pub right: u64,
    /// The link as last read.
    pub seen: u64,
    /// Store word 0 as read at stages 4, 6, 8 or written at 12.
    pub current: u64,
    /// The place of the call among all calls begun.
    pub ticket: u64,
}
