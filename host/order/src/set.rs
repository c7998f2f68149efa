//! Sets of small numbers.

/// A set of the numbers below a bound.
#[derive(Clone, Debug, PartialEq, Eq, Hash)]
pub struct Set(Box<[u64]>);

impl Set {
    /// The empty set of numbers below this.
    pub fn below(bound: usize) -> Self {
        Self(vec![0; (bound + 63) / 64].into_boxed_slice())
    }

    pub fn contains(&self, number: usize) -> bool {
        self.0[number / 64] >> (number % 64) & 1 == 1
    }

    pub fn insert(&mut self, number: usize) {
        self.0[number / 64] |= 1 << (number % 64);
    }

    pub fn remove(&mut self, number: usize) {
        self.0[number / 64] &= !(1 << (number % 64));
    }

    /// The lowest number in the set.
    pub fn first(&self) -> Option<usize> {
        let (at, word) = self.0.iter().enumerate().find(|(_, &word)| word != 0)?;
        Some(64 * at + word.trailing_zeros() as usize)
    }
}
