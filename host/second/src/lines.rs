//! The answer lines, written in large blocks.

use std::io::{self, Write};

use crate::response::{Answer, Response};

const BLOCK: usize = 64 * 1024;
/// No line is longer.
const MAX_LINE: usize = 128;

/// Writes one line an answer; [`Lines::finish`] writes what is left.
pub struct Lines<W> {
    output: W,
    buffer: Vec<u8>,
}

impl<W: Write> Lines<W> {
    pub fn new(output: W) -> Self {
        Self {
            output,
            buffer: Vec::with_capacity(BLOCK + MAX_LINE),
        }
    }

    pub fn write(&mut self, answer: &Answer) -> io::Result<()> {
        push_line(&mut self.buffer, answer);
        if self.buffer.len() >= BLOCK {
            self.write_block()?;
        }
        Ok(())
    }

    pub fn finish(mut self) -> io::Result<()> {
        self.write_block()?;
        self.output.flush()
    }

    fn write_block(&mut self) -> io::Result<()> {
        self.output.write_all(&self.buffer)?;
        self.buffer.clear();
        Ok(())
    }
}

/// Appends the line of an answer.
pub fn push_line(line: &mut Vec<u8>, answer: &Answer) {
    match *answer {
        Ok(Response::On) => line.extend(b"on"),
        Ok(Response::Open) => line.extend(b"open"),
        Ok(Response::Empty) => line.extend(b"empty"),
        Ok(Response::Begun(ticket)) => push_words(line, b"begun", &[ticket]),
        Ok(Response::Stored(ticket)) => push_words(line, b"stored", &[ticket]),
        Ok(Response::Took {
            time,
            path,
            order,
            energy,
            ..
        }) => push_words(line, b"took", &[time, path, order, energy.into()]),
        Err(refusal) => push_words(line, b"no", &[refusal.number().into()]),
    }
    line.push(b'\n');
}

fn push_words(line: &mut Vec<u8>, name: &[u8], numbers: &[u64]) {
    line.extend(name);
    for &number in numbers {
        line.push(b' ');
        push_decimal(line, number);
    }
}

fn push_decimal(line: &mut Vec<u8>, mut number: u64) {
    let mut digits = [0; 20];
    let mut first = digits.len();
    loop {
        first -= 1;
        digits[first] = b'0' + (number % 10) as u8;
        number /= 10;
        if number == 0 {
            break;
        }
    }
    line.extend(&digits[first..]);
}
