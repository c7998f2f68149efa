//! How links and the current word are packed into 64 bits.

/// An unmarked head or link to this successor.
pub fn link(successor: u64) -> u64 {
    2 * successor
}

/// The successor in a head or link; the number of nodes means end.
pub fn successor(link: u64) -> u64 {
    link / 2
}

pub fn is_marked(link: u64) -> bool {
    link % 2 == 1
}

/// The same link, marked (also if it was before).
pub fn marked(link: u64) -> u64 {
    link | 1
}

/// The current word for a bucket and an epoch below 2^32.
pub fn current(bucket: u64, epoch: u64) -> u64 {
    bucket << 32 | epoch
}

pub fn current_bucket(current: u64) -> u64 {
    current >> 32
}

pub fn current_epoch(current: u64) -> u64 {
    current & MAX_COUNT
}

/// The largest ticket, epoch or count of started calls: 2^32 - 1.
pub const MAX_COUNT: u64 = u32::MAX as u64;
