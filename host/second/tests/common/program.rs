//! The built program.

use std::io::Write;
use std::process::{Child, Command, Output, Stdio};
use std::thread;

pub fn start() -> Child {
    Command::new(env!("CARGO_BIN_EXE_second"))
        .stdin(Stdio::piped())
        .stdout(Stdio::piped())
        .stderr(Stdio::piped())
        .spawn()
        .unwrap()
}

/// What it prints for an input.
pub fn run(input: &[u8]) -> Output {
    let mut program = start();
    let mut stdin = program.stdin.take().unwrap();
    let input = input.to_vec();
    let writer = thread::spawn(move || stdin.write_all(&input));
    let output = program.wait_with_output().unwrap();
    writer.join().unwrap().unwrap();
    output
}
