//! Works through a turn file batch by batch and prints its lines, as `turns` does.
//! Pieces of the file and room for lines are small here, to show both ends of a
//! batch: the room is full, and a record is cut. And a batch made by hand.
//!
//!     cargo run --release --offline -p wubraken --example batches < ../examples/worked_example.turns

use std::io::{self, Read, Write};

use wubraken::{Pool, Refusal, Shape, Stop, Worker};

pub fn run(mut file: impl Read, mut lines: impl Write) -> io::Result<()> {
    // The memory that `turns` lends, with no pool open in it yet.
    let largest = Shape {
        workers: 64,
        nodes: 512,
        buckets: 256,
        width: 1,
    };
    let store = vec![0; largest.words().unwrap()];
    let table = vec![Worker::default(); largest.workers as usize];
    let mut pool = Pool::resume(Shape::default(), store, table);
    let (mut input, mut piece, mut out) = (Vec::new(), [0; 64], [0; 256]);
    let mut is_all = false;
    loop {
        let end = pool.run_batch(&input, &mut out);
        lines.write_all(&out[..end.written])?;
        input.drain(..end.read);
        match end.stop {
            // There is room again: on with the same input.
            Stop::Full => {}
            Stop::Drained if is_all => return lines.flush(),
            Stop::Halted(refusal) if is_all || refusal != Refusal::CutRecord => {
                return writeln!(lines, "no {}", refusal.number());
            }
            // More input, behind what there is of a cut record.
            _ => {
                let bytes = file.read(&mut piece)?;
                input.extend(&piece[..bytes]);
                is_all = bytes == 0;
            }
        }
    }
}

/// A batch made by hand: worker 0 puts an arrival and takes it out again.
pub fn by_hand() -> Vec<u8> {
    let time = 5_u32.to_le_bytes();
    let (path, distance) = (7_u16.to_le_bytes(), 3_u16.to_le_bytes());
    let put = [&b"PU\0"[..], &time, &path, &[1], &distance].concat();
    let turns = b"TU\0".repeat(7);
    [&put[..], &turns, b"TA\0", &turns].concat()
}

pub fn main() -> io::Result<()> {
    run(io::stdin().lock(), io::stdout().lock())
}
