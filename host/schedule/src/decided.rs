//! How often ties decide which arrival is taken.

use std::ops::AddAssign;

use second::layout::{field, head_at, node_at, NODE_WORDS};
use second::{stage, word, Program, Record, Records, Worker};

/// The takes that marked an arrival, and those of them that left others of its time
/// unmarked in its list; one may be among both kinds.
#[derive(Clone, Copy, Debug, Default, PartialEq, Eq)]
pub struct Decided {
    pub takes: usize,
    /// One with a lower ticket, but a higher order.
    pub by_order: usize,
    /// One of the same order with a higher ticket.
    pub by_ticket: usize,
}

impl Decided {
    /// In a turn file.
    pub fn of(input: &[u8]) -> Self {
        let mut decided = Self::default();
        let mut program = Program::new();
        for record in Records::new(input).flatten() {
            let before = worker_of(&program, record).map(|worker| worker.stage);
            let _ = program.apply(record);
            let after = worker_of(&program, record);
            if let (Some(stage::DEQUEUE_MARK), Some(worker)) = (before, after) {
                if worker.stage == stage::SEARCH_HEAD {
                    decided += Self::at_a_mark(&program, worker);
                }
            }
        }
        decided
    }

    /// After a worker's take has marked its own node.
    fn at_a_mark(program: &Program, worker: &Worker) -> Self {
        let [time, order, ticket] = key(node(program, worker.own));
        let others = unmarked(program, worker.bucket).into_iter().map(key);
        let ties: Vec<_> = others.filter(|other| other[0] == time).collect();
        let by_order = ties.iter().any(|tie| tie[1] > order && tie[2] < ticket);
        let by_ticket = ties.iter().any(|tie| tie[1] == order && tie[2] > ticket);
        Self {
            takes: 1,
            by_order: by_order.into(),
            by_ticket: by_ticket.into(),
        }
    }
}

impl AddAssign for Decided {
    fn add_assign(&mut self, more: Self) {
        self.takes += more.takes;
        self.by_order += more.by_order;
        self.by_ticket += more.by_ticket;
    }
}

/// The record of the worker that a turn is for.
fn worker_of(program: &Program, record: Record) -> Option<&Worker> {
    match record {
        Record::Step { worker } => program.workers().get(usize::from(worker)),
        _ => None,
    }
}

fn node(program: &Program, node: u64) -> &[u64] {
    let first = node_at(program.shape().buckets as usize, node as usize);
    &program.store()[first..first + NODE_WORDS]
}

/// Time, reflection order and ticket.
fn key(node: &[u64]) -> [u64; 3] {
    [field::TIME, field::ORDER, field::TICKET].map(|word| node[word])
}

/// The unmarked nodes of a bucket's list.
fn unmarked(program: &Program, bucket: u64) -> Vec<&[u64]> {
    let mut unmarked = Vec::new();
    let mut next = word::successor(program.store()[head_at(bucket as usize)]);
    while next != program.shape().nodes.into() {
        let words = node(program, next);
        if !word::is_marked(words[field::LINK]) {
            unmarked.push(words);
        }
        next = word::successor(words[field::LINK]);
    }
    unmarked
}
