//! Of takes that started after a moment, the one that ended first.

use crate::taken_list::calls::Take;

/// Some of the takes of a history. A tree of prefixes over the takes from the last
/// start to the first (Fenwick's): adding one and asking take log n.
pub struct FirstEnd<'a> {
    takes: &'a [Take],
    tree: Vec<Option<usize>>,
}

impl<'a> FirstEnd<'a> {
    /// None of these takes, which are listed by their start.
    pub fn none(takes: &'a [Take]) -> Self {
        let tree = vec![None; takes.len() + 1];
        Self { takes, tree }
    }

    /// The takes of which this is so.
    pub fn of(takes: &'a [Take], is_so: impl Fn(&Take) -> bool) -> Self {
        let mut these = Self::none(takes);
        for (number, take) in takes.iter().enumerate() {
            if is_so(take) {
                these.add(number);
            }
        }
        these
    }

    pub fn add(&mut self, take: usize) {
        let mut at = self.takes.len() - take;
        while at < self.tree.len() {
            self.tree[at] = self.first(self.tree[at], Some(take));
            at += at & at.wrapping_neg();
        }
    }

    /// Of those added that started after a moment.
    pub fn after(&self, moment: usize) -> Option<usize> {
        let before = self.takes.partition_point(|take| take.start <= moment);
        let mut at = self.takes.len() - before;
        let mut first = None;
        while at > 0 {
            first = self.first(first, self.tree[at]);
            at &= at - 1;
        }
        first
    }

    fn first(&self, one: Option<usize>, other: Option<usize>) -> Option<usize> {
        let both = one.into_iter().chain(other);
        both.min_by_key(|&take| self.takes[take].end)
    }
}
