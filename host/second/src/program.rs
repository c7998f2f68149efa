//! The program: a turn file in, answer lines out.

use std::io::{self, Read, Write};

use crate::layout::node_at;
use crate::lines::Lines;
use crate::pool::{self, Pool};
use crate::response::{Answer, Refusal};
use crate::shape::Shape;
use crate::turn_file::{Record, Records};
use crate::worker::Worker;

/// Words and records that the program lends: 256 buckets and 512 nodes fit.
pub const LENT_WORDS: usize = node_at(256, 512);
pub const LENT_RECORDS: usize = 64;

/// [`run`] from standard input to standard output. It is compiled here, together
/// with the rules, and so without calls between crates for each record.
pub fn run_standard() -> io::Result<()> {
    run(io::stdin().lock(), io::stdout().lock())
}

/// Answers every record of an input. Fails only if the output does.
pub fn run(input: impl Read, output: impl Write) -> io::Result<()> {
    Program::new().run_batch(input, output)
}

/// The lent memory of the program and the shape it is open with.
#[derive(Clone)]
pub struct Program {
    /// The all-zero shape until an opening is accepted.
    shape: Shape,
    store: Box<[u64]>,
    workers: Box<[Worker]>,
}

impl Default for Program {
    fn default() -> Self {
        Self::new()
    }
}

impl Program {
    pub fn new() -> Self {
        Self::lending(LENT_WORDS, LENT_RECORDS)
    }

    /// One that lends other memory.
    #[inline]
    pub fn lending(words: usize, records: usize) -> Self {
        Self {
            shape: Shape::default(),
            store: vec![0; words].into_boxed_slice(),
            workers: vec![Worker::default(); records].into_boxed_slice(),
        }
    }

    pub fn shape(&self) -> Shape {
        self.shape
    }

    pub fn store(&self) -> &[u64] {
        &self.store
    }

    pub fn workers(&self) -> &[Worker] {
        &self.workers
    }

    /// Whether an opening has been accepted.
    pub fn is_open(&self) -> bool {
        self.shape != Shape::default()
    }

    /// Answers every record of an input, in the pool as it is.
    pub fn run_batch(&mut self, input: impl Read, output: impl Write) -> io::Result<()> {
        let mut lines = Lines::new(output);
        for record in Records::new(input) {
            let answer = record.and_then(|record| self.apply(record));
            lines.write(&answer)?;
        }
        lines.finish()
    }

    /// Answers one record.
    pub fn apply(&mut self, record: Record) -> Answer {
        match record {
            Record::Open(shape) => self.open(shape),
            Record::EnqueueStart { worker, arrival } => {
                self.pool()?.enqueue_start(worker.into(), arrival)
            }
            Record::DequeueStart { worker } => self.pool()?.dequeue_start(worker.into()),
            Record::Step { worker } => self.pool()?.step(worker.into()),
        }
    }

    /// A refused opening leaves the shape before it.
    fn open(&mut self, shape: Shape) -> Answer {
        let answer = pool::open(shape, &mut self.store, &mut self.workers)?;
        self.shape = shape;
        Ok(answer)
    }

    /// The pool since its opening: in range by the rules, so not validated again.
    /// The all-zero shape is outside its limits.
    fn pool(&mut self) -> Result<Pool<'_>, Refusal> {
        if !self.is_open() {
            return Err(Refusal::ShapeOutsideLimits);
        }
        Ok(Pool::trusted(
            self.shape,
            &mut self.store,
            &mut self.workers,
        ))
    }
}
