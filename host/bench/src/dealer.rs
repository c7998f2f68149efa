//! Times dealt turns, in a program of their own: what it calls is compiled by itself, and
//! the other contests as without it.
#![deny(unsafe_code)]
#![allow(dead_code)]

mod dealt_turns;
mod empty_takes;
mod engines;
mod hold_model;
mod hold_narrow;
mod recorder;
mod report;
mod shapes;
mod timing;
mod whole_deals;

/// Given the rounds of each contest, and the holds in one.
fn main() {
    let words = std::env::args().skip(1);
    let numbers: Option<Vec<usize>> = words.map(|word| word.parse().ok()).collect();
    match numbers.as_deref() {
        Some(&[rounds, holds]) => dealt_turns::run(rounds, holds),
        _ => panic!("a number of rounds, and one of holds"),
    }
}
