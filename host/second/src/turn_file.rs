//! Reading a turn file, in blocks and in constant memory.

use std::io::{ErrorKind, Read};

use crate::response::Refusal;
use crate::shape::{Arrival, Shape};

/// One record of a turn file.
#[derive(Clone, Copy, Debug, PartialEq, Eq)]
pub enum Record {
    /// `OP`
    Open(Shape),
    /// `PU`
    EnqueueStart { worker: u8, arrival: Arrival },
    /// `TA`
    DequeueStart { worker: u8 },
    /// `TU`
    Step { worker: u8 },
}

const MAX_RECORD: usize = 12;

impl Record {
    /// Appends the bytes of the record; fields keep the low bytes of their size.
    pub fn encode(&self, bytes: &mut Vec<u8>) {
        match *self {
            Self::Open(shape) => {
                bytes.extend(b"OP");
                bytes.push(shape.workers as u8);
                bytes.extend((shape.nodes as u16).to_le_bytes());
                bytes.extend((shape.buckets as u16).to_le_bytes());
                bytes.extend((shape.width as u16).to_le_bytes());
            }
            Self::EnqueueStart { worker, arrival } => {
                bytes.extend(b"PU");
                bytes.push(worker);
                bytes.extend(arrival.time.to_le_bytes());
                bytes.extend((arrival.path as u16).to_le_bytes());
                bytes.push(arrival.order as u8);
                bytes.extend((arrival.distance as u16).to_le_bytes());
            }
            Self::DequeueStart { worker } => bytes.extend([b'T', b'A', worker]),
            Self::Step { worker } => bytes.extend([b'T', b'U', worker]),
        }
    }
}

/// What the first bytes of an input hold.
enum Decoded {
    Record(Record, usize),
    Incomplete,
    UnknownMark,
}

fn decode(bytes: &[u8]) -> Decoded {
    match *bytes {
        [b'T', b'U', worker, ..] => Decoded::Record(Record::Step { worker }, 3),
        [b'T', b'A', worker, ..] => Decoded::Record(Record::DequeueStart { worker }, 3),
        [b'P', b'U', worker, t0, t1, t2, t3, p0, p1, order, d0, d1, ..] => {
            let arrival = Arrival {
                time: u32::from_le_bytes([t0, t1, t2, t3]),
                path: u16::from_le_bytes([p0, p1]).into(),
                order: order.into(),
                distance: u16::from_le_bytes([d0, d1]).into(),
            };
            Decoded::Record(Record::EnqueueStart { worker, arrival }, 12)
        }
        [b'O', b'P', workers, n0, n1, b0, b1, w0, w1, ..] => {
            let shape = Shape {
                workers: workers.into(),
                nodes: u16::from_le_bytes([n0, n1]).into(),
                buckets: u16::from_le_bytes([b0, b1]).into(),
                width: u16::from_le_bytes([w0, w1]).into(),
            };
            Decoded::Record(Record::Open(shape), 9)
        }
        [b'O', b'P', ..] | [b'P', b'U', ..] | [b'T', b'A'] | [b'T', b'U'] => Decoded::Incomplete,
        [] | [_] => Decoded::Incomplete,
        _ => Decoded::UnknownMark,
    }
}

const BLOCK: usize = 64 * 1024;

/// The records of an input. A refusal (7 or 8) is the last item; a read error
/// counts as the end of the input.
pub struct Records<R> {
    input: R,
    /// A block, and room for a record cut by the block before.
    buffer: Box<[u8]>,
    start: usize,
    filled: usize,
    ended: bool,
}

impl<R: Read> Records<R> {
    pub fn new(input: R) -> Self {
        Self {
            input,
            buffer: vec![0; MAX_RECORD + BLOCK].into_boxed_slice(),
            start: 0,
            filled: 0,
            ended: false,
        }
    }

    /// Moves the cut record to the front and reads one block behind it.
    fn refill(&mut self) {
        self.buffer.copy_within(self.start..self.filled, 0);
        self.filled -= self.start;
        self.start = 0;
        let room = &mut self.buffer[self.filled..self.filled + BLOCK];
        let read = read_some(&mut self.input, room);
        self.filled += read;
        self.ended = read == 0;
    }

    fn refuse(&mut self, refusal: Refusal) -> Option<Result<Record, Refusal>> {
        self.ended = true;
        self.start = self.filled;
        Some(Err(refusal))
    }
}

impl<R: Read> Iterator for Records<R> {
    type Item = Result<Record, Refusal>;

    fn next(&mut self) -> Option<Self::Item> {
        loop {
            match decode(&self.buffer[self.start..self.filled]) {
                Decoded::Record(record, length) => {
                    self.start += length;
                    return Some(Ok(record));
                }
                Decoded::UnknownMark => return self.refuse(Refusal::UnknownMark),
                Decoded::Incomplete if !self.ended => self.refill(),
                Decoded::Incomplete if self.start == self.filled => return None,
                Decoded::Incomplete => return self.refuse(Refusal::RecordCut),
            }
        }
    }
}

/// Bytes read; 0 at the end of the input and on any error but an interruption.
fn read_some(input: &mut impl Read, room: &mut [u8]) -> usize {
    loop {
        match input.read(room) {
            Ok(read) => return read,
            Err(error) if error.kind() == ErrorKind::Interrupted => {}
            Err(_) => return 0,
        }
    }
}
