//! Writes the turn file of crates/turns/stdin to standard output.
#![forbid(unsafe_code)]

use std::io::{self, Write};

fn main() -> io::Result<()> {
    io::stdout().write_all(&schedule::stored::input())
}
