//! The proved batch entry and the second program's library, fed turn files in
//! memory.

use std::io::{self, Write};

use second::Program;
use wubraken::{Pool, Shape, Stop, Worker};

use crate::timing::keep;

/// Answers turn files; the pool stays as it is from one to the next.
pub trait Engine {
    /// Hands out the lines block by block.
    fn run_batch(&mut self, input: &[u8], lines: &mut dyn FnMut(&[u8]));

    /// Answers, and drops the lines.
    fn run(&mut self, input: &[u8]) {
        self.run_batch(input, &mut |block| {
            keep(block.last().map_or(0, |&it| it.into()))
        });
    }

    /// All lines of an input.
    fn lines(&mut self, input: &[u8]) -> Vec<u8> {
        let mut lines = Vec::new();
        self.run_batch(input, &mut |block| lines.extend(block));
        lines
    }
}

pub struct BatchEntry {
    pub pool: Pool,
    block: Vec<u8>,
}

/// Each block costs one look at the lent memory, so it is not small.
const BLOCK: usize = 256 * 1024;

impl BatchEntry {
    /// Lends so many words and records, with no pool open in them.
    pub fn lending(words: usize, records: usize) -> Self {
        let (store, table) = (vec![0; words], vec![Worker::default(); records]);
        Self::of(Pool::resume(Shape::default(), store, table))
    }

    pub fn of(pool: Pool) -> Self {
        Self {
            pool,
            block: vec![0; BLOCK],
        }
    }
}

impl Engine for BatchEntry {
    fn run_batch(&mut self, mut input: &[u8], lines: &mut dyn FnMut(&[u8])) {
        loop {
            let end = self.pool.run_batch(input, &mut self.block);
            lines(&self.block[..end.written]);
            input = &input[end.read..];
            match end.stop {
                Stop::Drained => break,
                Stop::Full => {}
                other => panic!("no turn file: {other:?}"),
            }
        }
    }
}

impl Engine for Program {
    fn run_batch(&mut self, input: &[u8], lines: &mut dyn FnMut(&[u8])) {
        Program::run_batch(self, input, Blocks(lines)).expect("blocks are always taken");
    }
}

struct Blocks<'a>(&'a mut dyn FnMut(&[u8]));

impl Write for Blocks<'_> {
    fn write(&mut self, block: &[u8]) -> io::Result<usize> {
        (self.0)(block);
        Ok(block.len())
    }

    fn flush(&mut self) -> io::Result<()> {
        Ok(())
    }
}

/// Fails where the two do not print the same.
pub fn assert_same_lines(name: &str, ours: &[u8], others: &[u8]) {
    if let Some(place) = ours.iter().zip(others).position(|(a, b)| a != b) {
        let line = ours[..place].iter().filter(|&&byte| byte == b'\n').count() + 1;
        panic!("{name}: line {line} is not the second program's");
    }
    assert_eq!(ours.len(), others.len(), "{name}: lines are missing");
}
