//! What the tests share. Each of them uses a part of it.
#![allow(dead_code)]

pub mod runs;

use std::process::{Command, Output};

/// The program, as it is run.
pub fn hall(words: &[&str]) -> Output {
    Command::new(env!("CARGO_BIN_EXE_hall"))
        .args(words)
        .output()
        .unwrap()
}

pub fn text(words: &[&str]) -> String {
    let output = hall(words);
    assert!(output.status.success() && output.stderr.is_empty());
    String::from_utf8(output.stdout).unwrap()
}
