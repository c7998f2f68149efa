//! The words of the lent store, by name.

use crate::layout::{field, head_at, node_at, CURRENT, HEADS, LAST_ALLOCATED, STARTED};
use crate::shape::Shape;
use crate::word::link;

/// A node's standing.
#[derive(Clone, Copy, Debug, PartialEq, Eq)]
pub enum Reclamation {
    /// Never used.
    Unused,
    /// In use.
    Live,
    /// Unlinked when this many calls had been started: resting, or free again.
    Retired(u64),
}

impl Reclamation {
    pub fn from_word(word: u64) -> Self {
        match word {
            0 => Self::Unused,
            1 => Self::Live,
            _ => Self::Retired(word - 2),
        }
    }

    /// The word of a state; a count of started calls is below 2^32.
    pub fn to_word(self) -> u64 {
        match self {
            Self::Unused => 0,
            Self::Live => 1,
            Self::Retired(started) => 2 + started,
        }
    }

    /// Free, when `oldest` is the lowest ticket of the calls in progress.
    pub fn is_free(self, oldest: Option<u64>) -> bool {
        match self {
            Self::Unused => true,
            Self::Live => false,
            Self::Retired(started) => oldest.map_or(true, |ticket| ticket > started),
        }
    }
}

/// Exactly the words of a shape's layout. The shape is within its limits, and the
/// places asked for come from a record and the first words, which are in range: so
/// every one of them exists, whatever heads and nodes hold.
pub(crate) struct Store<'a> {
    words: &'a mut [u64],
    buckets: usize,
    nodes: usize,
}

impl<'a> Store<'a> {
    /// Cuts the layout out of lent words that are long enough.
    pub fn new(shape: Shape, words: &'a mut [u64]) -> Self {
        Self {
            words: &mut words[..shape.store_words()],
            buckets: shape.buckets as usize,
            nodes: shape.nodes as usize,
        }
    }

    /// Writes the contents of a fresh pool.
    pub fn reset(&mut self) {
        let end = link(self.end());
        let first_node = node_at(self.buckets, 0);
        self.words[CURRENT] = 0;
        self.words[STARTED] = 0;
        self.words[LAST_ALLOCATED] = self.nodes as u64 - 1;
        self.words[HEADS..first_node].fill(end);
        self.words[first_node..].fill(0);
    }

    /// The successor that means end.
    pub fn end(&self) -> u64 {
        self.nodes as u64
    }

    pub fn last_bucket(&self) -> u64 {
        self.buckets as u64 - 1
    }

    pub fn current(&self) -> u64 {
        self.words[CURRENT]
    }

    pub fn set_current(&mut self, current: u64) {
        self.words[CURRENT] = current;
    }

    /// Calls started (word 1).
    pub fn started(&self) -> u64 {
        self.words[STARTED]
    }

    pub fn set_started(&mut self, started: u64) {
        self.words[STARTED] = started;
    }

    /// The last node handed out (word 2).
    pub fn last_allocated(&self) -> u64 {
        self.words[LAST_ALLOCATED]
    }

    pub fn set_last_allocated(&mut self, node: u64) {
        self.words[LAST_ALLOCATED] = node;
    }

    pub fn head(&self, bucket: u64) -> u64 {
        self.words[head_at(bucket as usize)]
    }

    /// The left word that is this node's link.
    pub fn left_of_node(&self, node: u64) -> u64 {
        self.buckets as u64 + node
    }

    pub fn node(&self, node: u64, field: usize) -> u64 {
        self.words[self.node_at(node) + field]
    }

    pub fn set_node(&mut self, node: u64, field: usize, value: u64) {
        let at = self.node_at(node) + field;
        self.words[at] = value;
    }

    pub fn reclamation(&self, node: u64) -> Reclamation {
        Reclamation::from_word(self.node(node, field::RECLAMATION))
    }

    pub fn set_reclamation(&mut self, node: u64, state: Reclamation) {
        self.set_node(node, field::RECLAMATION, state.to_word());
    }

    /// Keys order by time, then reflection order, then ticket.
    pub fn key(&self, node: u64) -> (u64, u64, u64) {
        (
            self.node(node, field::TIME),
            self.node(node, field::ORDER),
            self.node(node, field::TICKET),
        )
    }

    pub fn swap_current(&mut self, seen: u64, new: u64) -> bool {
        compare_and_swap(&mut self.words[CURRENT], seen, new)
    }

    pub fn swap_left(&mut self, left: u64, seen: u64, new: u64) -> bool {
        let at = self.left_at(left as usize);
        compare_and_swap(&mut self.words[at], seen, new)
    }

    pub fn swap_link(&mut self, node: u64, seen: u64, new: u64) -> bool {
        let at = self.node_at(node) + field::LINK;
        compare_and_swap(&mut self.words[at], seen, new)
    }

    fn node_at(&self, node: u64) -> usize {
        node_at(self.buckets, node as usize)
    }

    /// Left words count the heads first, then the links of the nodes.
    fn left_at(&self, left: usize) -> usize {
        match left.checked_sub(self.buckets) {
            None => head_at(left),
            Some(node) => self.node_at(node as u64) + field::LINK,
        }
    }
}

/// Replaces a word only if it still holds the value seen.
fn compare_and_swap(word: &mut u64, seen: u64, new: u64) -> bool {
    let held = *word == seen;
    if held {
        *word = new;
    }
    held
}
