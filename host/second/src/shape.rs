//! Shapes, arrivals and their limits.

use crate::layout::node_at;

/// What a pool is made for; handed to every call.
#[derive(Clone, Copy, Debug, Default, PartialEq, Eq)]
pub struct Shape {
    pub workers: u32,
    pub nodes: u32,
    pub buckets: u32,
    /// Samples of time in a bucket; the last one takes all later times, too.
    pub width: u32,
}

impl Shape {
    pub const MAX_WORKERS: u32 = 64;
    pub const MAX_NODES: u32 = 4_096;
    pub const MAX_BUCKETS: u32 = 256;
    pub const MAX_WIDTH: u32 = 65_535;

    /// Refusal 1 is the opposite of this.
    pub fn is_within_limits(self) -> bool {
        (1..=Self::MAX_WORKERS).contains(&self.workers)
            && (1..=Self::MAX_NODES).contains(&self.nodes)
            && (1..=Self::MAX_BUCKETS).contains(&self.buckets)
            && (1..=Self::MAX_WIDTH).contains(&self.width)
    }

    /// Words of the layout, for a shape within its limits.
    pub fn store_words(self) -> usize {
        node_at(self.buckets as usize, self.nodes as usize)
    }

    /// The samples that the buckets would cover if each were one width long, for a
    /// shape within its limits; later times lie in the last one.
    pub fn span(self) -> u32 {
        self.buckets * self.width
    }

    /// The bucket of a time, for a shape within its limits: the last one for the
    /// whole tail.
    pub fn bucket_of(self, time: u32) -> u32 {
        (time / self.width).min(self.buckets - 1)
    }
}

/// An arrival as handed to the start of an enqueue.
#[derive(Clone, Copy, Debug, Default, PartialEq, Eq)]
pub struct Arrival {
    pub time: u32,
    pub path: u32,
    pub order: u32,
    /// Metres.
    pub distance: u32,
}

impl Arrival {
    pub const MAX_PATH: u32 = 65_535;
    pub const MAX_ORDER: u32 = 63;
    pub const MAX_DISTANCE: u32 = 1_024;

    /// Refusal 5 is the opposite of this; every time has a bucket.
    pub fn is_in_range(self) -> bool {
        self.path <= Self::MAX_PATH
            && self.order <= Self::MAX_ORDER
            && (1..=Self::MAX_DISTANCE).contains(&self.distance)
    }
}
