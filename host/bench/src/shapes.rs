//! The ends of the range of shapes, and an arrival for all of them.

use wubraken::{Arrival, Shape};

pub const SMALLEST: Shape = Shape {
    workers: 1,
    nodes: 1,
    buckets: 1,
    width: 1,
};

pub const LARGEST: Shape = Shape {
    workers: Shape::MAX_WORKERS,
    nodes: Shape::MAX_NODES,
    buckets: Shape::MAX_BUCKETS,
    width: Shape::MAX_WIDTH,
};

/// In the first bucket.
pub const ARRIVAL: Arrival = Arrival {
    time: 0,
    path: 7,
    order: 1,
    distance: 3,
};

/// A shape of the second program as the wrapper has it.
pub fn of_wrapper(shape: second::Shape) -> Shape {
    Shape {
        workers: shape.workers.into(),
        nodes: shape.nodes.into(),
        buckets: shape.buckets.into(),
        width: shape.width.into(),
    }
}
