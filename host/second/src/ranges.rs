//! The ranges of every field of store and table (refusal 3).
//!
//! Ranges only: lists are not walked, and fields are compared with one another
//! only where the document ties them together. In all three tests the shape is
//! within its limits and both slices are long enough.

use crate::layout::{field, CURRENT, HEADS, LAST_ALLOCATED, NODE_WORDS, STARTED};
use crate::shape::{Arrival, Shape};
use crate::word::{current_bucket, is_marked, successor, MAX_COUNT};
use crate::worker::{kind, stage, Worker};

/// Whether every field of the layout's words and of the workers' records is in
/// its range. Words and records beyond are not read.
pub fn in_range(shape: Shape, store: &[u64], workers: &[Worker]) -> bool {
    let bounds = Bounds::new(shape);
    let (fixed, rest) = store[..shape.store_words()].split_at(HEADS);
    let (heads, nodes) = rest.split_at(shape.buckets as usize);
    let records = &workers[..shape.workers as usize];

    bounds.fixed(fixed)
        && heads.iter().all(|&word| bounds.head(word))
        && nodes.chunks_exact(NODE_WORDS).all(|node| bounds.node(node))
        && records.iter().all(|record| bounds.worker(record))
}

/// What a narrow turn and the narrow start of a take look at: the first words, and
/// the worker's record. Where the shape has no such worker there is no record.
pub(crate) fn worker_in_range(
    shape: Shape,
    store: &[u64],
    workers: &[Worker],
    worker: usize,
) -> bool {
    let bounds = Bounds::new(shape);
    let records = &workers[..shape.workers as usize];
    let record = records.get(worker);

    bounds.fixed(store) && record.map_or(true, |record| bounds.worker(record))
}

/// What the narrow start of a put looks at: the first words, and every worker's
/// record, as calls in progress decide which nodes are free.
pub(crate) fn workers_in_range(shape: Shape, store: &[u64], workers: &[Worker]) -> bool {
    let bounds = Bounds::new(shape);
    let records = &workers[..shape.workers as usize];

    bounds.fixed(store) && records.iter().all(|record| bounds.worker(record))
}

/// The shape's bounds, as words.
struct Bounds {
    buckets: u64,
    nodes: u64,
}

impl Bounds {
    fn new(shape: Shape) -> Self {
        Self {
            buckets: shape.buckets.into(),
            nodes: shape.nodes.into(),
        }
    }

    /// The words before the heads.
    fn fixed(&self, words: &[u64]) -> bool {
        self.current(words[CURRENT])
            && words[STARTED] <= MAX_COUNT
            && words[LAST_ALLOCATED] < self.nodes
    }

    /// The epoch is the low half of the word, so it is always below 2^32.
    fn current(&self, word: u64) -> bool {
        current_bucket(word) < self.buckets
    }

    fn head(&self, word: u64) -> bool {
        !is_marked(word) && self.link(word)
    }

    fn link(&self, word: u64) -> bool {
        successor(word) <= self.nodes
    }

    fn node(&self, words: &[u64]) -> bool {
        self.link(words[field::LINK])
            && words[field::TIME] <= MAX_COUNT
            && words[field::TICKET] <= MAX_COUNT
            && words[field::PATH] <= Arrival::MAX_PATH.into()
            && words[field::ORDER] <= Arrival::MAX_ORDER.into()
            && distance(words[field::DISTANCE], words[field::RECLAMATION])
            && words[field::EPOCH] <= MAX_COUNT
            && words[field::RECLAMATION] <= MAX_COUNT + 2
    }

    fn worker(&self, record: &Worker) -> bool {
        record.stage <= stage::DEQUEUE_CONFIRM
            && kind_fits(record.kind, record.stage)
            && record.own < self.nodes
            && self.bucket_fits(record.bucket, record.stage)
            && record.left < self.buckets + self.nodes
            && self.right_fits(record.right, record.stage)
            && self.link(record.link_seen)
            && self.current(record.current_seen)
            && record.ticket <= MAX_COUNT
    }

    /// Advancing needs a bucket to advance to.
    fn bucket_fits(&self, bucket: u64, stage: u64) -> bool {
        match stage {
            stage::DEQUEUE_ADVANCE => bucket < self.buckets - 1,
            _ => bucket < self.buckets,
        }
    }

    /// The stages that look at the right node need one.
    fn right_fits(&self, right: u64, stage: u64) -> bool {
        match stage {
            stage::SEARCH_LINK
            | stage::SEARCH_UNLINK
            | stage::DEQUEUE_LINK
            | stage::DEQUEUE_MARK => right < self.nodes,
            _ => right <= self.nodes,
        }
    }
}

/// Zero is allowed only in a node never used.
fn distance(distance: u64, reclamation: u64) -> bool {
    distance <= Arrival::MAX_DISTANCE.into() && (distance > 0 || reclamation == 0)
}

/// Idle and searching records have either kind.
fn kind_fits(kind: u64, stage: u64) -> bool {
    match stage {
        stage::ENQUEUE_PREPARE..=stage::ENQUEUE_LOWER => kind == kind::ENQUEUE,
        stage::DEQUEUE_CURRENT..=stage::DEQUEUE_CONFIRM => kind == kind::DEQUEUE,
        _ => kind == kind::ENQUEUE || kind == kind::DEQUEUE,
    }
}
