//! Buffers with guards on both sides.

use std::fmt::Debug;

pub use schedule::lent::GARBAGE;
use wubraken::Worker;

pub const GARBAGE_RECORD: Worker = Worker {
    stage: GARBAGE,
    kind: GARBAGE,
    own: GARBAGE,
    bucket: GARBAGE,
    left: GARBAGE,
    right: GARBAGE,
    seen: GARBAGE,
    current: GARBAGE,
    ticket: GARBAGE,
};

const GUARDS: usize = 16;

/// Lends the middle of a longer buffer.
#[derive(Clone)]
pub struct Guarded<E> {
    all: Vec<E>,
    guard: E,
}

impl<E: Copy + PartialEq + Debug> Guarded<E> {
    pub fn new(contents: &[E], guard: E) -> Self {
        let mut all = vec![guard; GUARDS];
        all.extend(contents);
        all.extend([guard; GUARDS]);
        Self { all, guard }
    }

    pub fn lent(&mut self) -> &mut [E] {
        let end = self.all.len() - GUARDS;
        &mut self.all[GUARDS..end]
    }

    /// What was lent, if the guards still stand.
    pub fn contents(&self) -> &[E] {
        let end = self.all.len() - GUARDS;
        for guards in [&self.all[..GUARDS], &self.all[end..]] {
            assert_eq!(guards, [self.guard; GUARDS], "written outside a buffer");
        }
        &self.all[GUARDS..end]
    }
}
