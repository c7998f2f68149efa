//! What the tests share. Each of them uses a part of it.
#![allow(dead_code)]

pub mod both;
pub mod both_decays;
pub mod both_rows;
pub mod dealt;
pub mod draw;
#[cfg(target_os = "linux")]
pub mod fenced;
pub mod guarded;
pub mod lent;
pub mod seeds;
pub mod translate;

use wubraken::{Arrival, Shape};

pub const fn shape(workers: u64, nodes: u64, buckets: u64, width: u64) -> Shape {
    Shape {
        workers,
        nodes,
        buckets,
        width,
    }
}

/// That of the worked example.
pub const ARRIVAL: Arrival = Arrival {
    time: 5,
    path: 7,
    order: 1,
    distance: 3,
};
