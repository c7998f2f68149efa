//! Times narrow calls, in a program of their own: another caller of the second
//! program's turn would keep the compiler from building it into its loop, and slow
//! it down in the other contests.
#![deny(unsafe_code)]
#![allow(dead_code)]

mod narrow_calls;
mod report;
mod shapes;
mod timing;

/// Given the rounds of each contest.
fn main() {
    let rounds = std::env::args().nth(1).and_then(|word| word.parse().ok());
    narrow_calls::run(rounds.expect("a number of rounds"));
}
