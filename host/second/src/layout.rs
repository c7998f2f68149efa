//! Where the words of the lent store lie.

pub const CURRENT: usize = 0;
/// Calls started.
pub const STARTED: usize = 1;
/// The last node handed out.
pub const LAST_ALLOCATED: usize = 2;
/// The first head.
pub const HEADS: usize = 3;
/// Words of a node.
pub const NODE_WORDS: usize = 8;

/// Offsets inside the words of a node.
pub mod field {
    pub const LINK: usize = 0;
    pub const TIME: usize = 1;
    pub const TICKET: usize = 2;
    pub const PATH: usize = 3;
    pub const ORDER: usize = 4;
    pub const DISTANCE: usize = 5;
    pub const EPOCH: usize = 6;
    /// The standing; see [`crate::Reclamation`].
    pub const RECLAMATION: usize = 7;
}

pub const fn head_at(bucket: usize) -> usize {
    HEADS + bucket
}

/// The first word of a node; that of the node behind the last is the length.
pub const fn node_at(buckets: usize, node: usize) -> usize {
    HEADS + buckets + NODE_WORDS * node
}
