//! Shapes to open with.

use random::Random;
use second::layout::{node_at, NODE_WORDS};
use second::{Shape, LENT_WORDS};

/// A shape that the program opens: mostly few nodes, so that they are used again
/// and again, and few buckets, so that their lists are contended.
pub fn accepted(random: &mut Random) -> Shape {
    if random.one_in(8) {
        return large(random);
    }
    let most_nodes = random.choose(&[4, 12, 12, 40]);
    Shape {
        workers: random.between(1, 6),
        nodes: random.between(1, most_nodes),
        buckets: random.between(1, 4),
        width: random.between(1, 8),
    }
}

fn large(random: &mut Random) -> Shape {
    let buckets = random.choose(&[1, 2, 16, Shape::MAX_BUCKETS - 1, Shape::MAX_BUCKETS]);
    let most = most_nodes(buckets);
    Shape {
        workers: random.choose(&[1, 3, 8, Shape::MAX_WORKERS - 1, Shape::MAX_WORKERS]),
        nodes: random.choose(&[8, 64, most - 1, most]),
        buckets,
        width: random.choose(&[1, 10, 1_000, Shape::MAX_WIDTH - 1, Shape::MAX_WIDTH]),
    }
}

/// A shape refused by 1: one field just outside, or far outside.
pub fn outside_limits(random: &mut Random) -> Shape {
    let shape = accepted(random);
    match random.below(7) {
        0 => Shape {
            workers: 0,
            ..shape
        },
        1 => Shape {
            workers: random.choose(&[Shape::MAX_WORKERS + 1, 128, 255]),
            ..shape
        },
        2 => Shape { nodes: 0, ..shape },
        3 => Shape {
            nodes: random.choose(&[Shape::MAX_NODES + 1, 65_535]),
            ..shape
        },
        4 => Shape {
            buckets: 0,
            ..shape
        },
        5 => Shape {
            buckets: random.choose(&[Shape::MAX_BUCKETS + 1, 65_535]),
            ..shape
        },
        _ => Shape { width: 0, ..shape },
    }
}

/// A shape within its limits that the lent words cannot hold: refused by 2.
pub fn too_large(random: &mut Random) -> Shape {
    let shape = accepted(random);
    let most = most_nodes(shape.buckets);
    Shape {
        nodes: random.choose(&[most + 1, 1_000, Shape::MAX_NODES]),
        ..shape
    }
}

/// As many nodes as the lent words hold beside the buckets.
fn most_nodes(buckets: u32) -> u32 {
    ((LENT_WORDS - node_at(buckets as usize, 0)) / NODE_WORDS) as u32
}
