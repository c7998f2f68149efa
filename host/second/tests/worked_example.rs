//! The worked example of the section on the turn file, byte for byte.

mod common;

use common::program;
use schedule::by_hand::WORKED_EXAMPLE;

const INPUT: &[u8] = WORKED_EXAMPLE.0;
const OUTPUT: &str = WORKED_EXAMPLE.1;

/// The file that the README runs, and its lines.
#[test]
fn the_stored_files() {
    assert_eq!(
        include_bytes!("../../../examples/worked_example.turns"),
        INPUT
    );
    assert_eq!(
        include_str!("../../../examples/worked_example.lines"),
        OUTPUT
    );
}

#[test]
fn through_the_library() {
    assert_eq!(schedule::lines(INPUT), OUTPUT);
}

#[test]
fn through_the_program() {
    let output = program::run(INPUT);
    assert!(output.status.success());
    assert_eq!(String::from_utf8(output.stdout).unwrap(), OUTPUT);
}
