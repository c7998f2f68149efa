//! Wrong pools: the rules of the second program, with the lent memory spoilt after
//! a turn, or another answer given.

use std::collections::HashMap;

use schedule::lent::Memory;
use second::layout::{field, CURRENT};
use second::{kind, stage, word, Answer, Arrival, Lines, Record, Records, Response, Worker};
use second::{LENT_RECORDS, LENT_WORDS};

#[derive(Clone, Copy, Debug, PartialEq, Eq)]
pub enum Mistake {
    None,
    /// A taker walks past a node of a higher epoch.
    PassOver,
    /// A node is free once it is marked.
    FreeWhenMarked,
    /// A node is free once its taker has ended.
    FreeWhenTaken,
    /// Stored is answered at the link.
    StoredAtLink,
    /// Current is lowered in the old epoch.
    OldEpoch,
    /// A taker takes the last node of a bucket.
    LastOfBucket,
    /// A taker that loses a node to another goes on behind the next one.
    PassNextAfterLoss,
    /// A taker answers empty at the end of any bucket.
    EmptyBucket,
    /// A taker takes a marked node, too.
    TakeMarked,
    /// A put that fails to link its node answers stored; the node is free.
    StoredUnlinked,
    /// A take answers another path.
    OtherPath,
    /// The tail goes round: the last bucket is followed by the first.
    TailGoesRound,
    /// Keys order by time, then ticket.
    OrderIgnored,
    /// Of equal times the higher order comes first.
    HigherOrderFirst,
    /// Of equal times and orders the higher ticket comes first.
    HigherTicketFirst,
}

impl Mistake {
    pub const ALL: [Self; 15] = [
        Self::PassOver,
        Self::FreeWhenMarked,
        Self::FreeWhenTaken,
        Self::StoredAtLink,
        Self::OldEpoch,
        Self::LastOfBucket,
        Self::PassNextAfterLoss,
        Self::EmptyBucket,
        Self::TakeMarked,
        Self::StoredUnlinked,
        Self::OtherPath,
        Self::TailGoesRound,
        Self::OrderIgnored,
        Self::HigherOrderFirst,
        Self::HigherTicketFirst,
    ];
}

/// What an engine with this mistake prints.
pub fn print(mistake: Mistake, input: &[u8]) -> String {
    let mut engine = Engine::new(mistake);
    let mut output = Vec::new();
    let mut lines = Lines::new(&mut output);
    for record in Records::new(input) {
        let answer = record.and_then(|record| engine.apply(record));
        lines.write(&answer).unwrap();
    }
    lines.finish().unwrap();
    String::from_utf8(output).unwrap()
}

struct Engine {
    mistake: Mistake,
    memory: Memory,
    /// By node, the order of the arrival last put there, which its take answers.
    orders: HashMap<u64, u64>,
}

impl Engine {
    fn new(mistake: Mistake) -> Self {
        Self {
            mistake,
            memory: Memory::zeros(LENT_WORDS, LENT_RECORDS),
            orders: HashMap::new(),
        }
    }

    fn apply(&mut self, record: Record) -> Answer {
        match record {
            Record::Step { worker } => {
                let worker = usize::from(worker);
                let before = self.memory.workers.get(worker).copied();
                let response = self.memory.turn(worker)?;
                Ok(self.spoil(worker, before.unwrap_or_default(), response))
            }
            Record::EnqueueStart { worker, arrival } => {
                let response = self.memory.apply(record)?;
                self.spoil_start(worker.into(), arrival);
                Ok(response)
            }
            other => self.memory.apply(other),
        }
    }

    /// Makes the mistake after the start of a put.
    fn spoil_start(&mut self, worker: usize, arrival: Arrival) {
        let (shape, record) = (self.memory.shape, &mut self.memory.workers[worker]);
        let (node, ticket) = (record.own as usize, record.ticket);
        let order = u64::from(arrival.order);
        self.orders.insert(record.own, order);
        match self.mistake {
            Mistake::TailGoesRound => {
                record.bucket = (arrival.time / shape.width % shape.buckets).into();
            }
            Mistake::OrderIgnored => *self.memory.node_word(node, field::ORDER) = 0,
            Mistake::HigherOrderFirst => {
                *self.memory.node_word(node, field::ORDER) = u64::from(Arrival::MAX_ORDER) - order;
            }
            Mistake::HigherTicketFirst => {
                *self.memory.node_word(node, field::TICKET) = word::MAX_COUNT - ticket;
            }
            _ => {}
        }
    }

    /// Makes the mistake after a turn, where there is room for it.
    fn spoil(&mut self, worker: usize, before: Worker, response: Response) -> Response {
        match before.kind {
            kind::ENQUEUE => self.spoil_put(worker, before, response),
            _ => self.spoil_take(worker, before, response),
        }
    }

    fn spoil_put(&mut self, worker: usize, before: Worker, response: Response) -> Response {
        let after = self.memory.workers[worker];
        match (self.mistake, before.stage, after.stage) {
            (Mistake::StoredAtLink, stage::ENQUEUE_INSERT, stage::ENQUEUE_COMPARE) => {
                return self.end(worker, Response::Stored(after.ticket));
            }
            (Mistake::OldEpoch, stage::ENQUEUE_LOWER, stage::IDLE) => {
                let epoch = word::current_epoch(before.current_seen);
                self.memory.store[CURRENT] = word::current(before.bucket, epoch);
            }
            (Mistake::StoredUnlinked, stage::ENQUEUE_INSERT, stage::SEARCH_HEAD) => {
                self.free(after.own);
                return self.end(worker, Response::Stored(after.ticket));
            }
            _ => {}
        }
        response
    }

    fn spoil_take(&mut self, worker: usize, before: Worker, mut response: Response) -> Response {
        let after = self.memory.workers[worker];
        if let Response::Took { order, .. } = &mut response {
            *order = self.orders[&after.own];
        }
        let took = matches!(response, Response::Took { .. });
        match (self.mistake, before.stage, after.stage) {
            (Mistake::PassOver, stage::DEQUEUE_LINK, stage::DEQUEUE_CURRENT) => {
                self.pass_over(worker);
            }
            (Mistake::FreeWhenMarked, stage::DEQUEUE_MARK, stage::SEARCH_HEAD) => {
                self.free(after.own);
            }
            (Mistake::FreeWhenTaken, _, stage::IDLE) if took => self.free(after.own),
            (Mistake::LastOfBucket, stage::DEQUEUE_LINK, stage::DEQUEUE_MARK) => {
                if word::successor(after.link_seen) != self.memory.shape.nodes.into() {
                    self.pass_over(worker);
                }
            }
            (Mistake::PassNextAfterLoss, stage::DEQUEUE_MARK, stage::DEQUEUE_LINK) => {
                self.pass_next(worker);
            }
            (Mistake::EmptyBucket, _, stage::DEQUEUE_ADVANCE) => {
                return self.end(worker, Response::Empty);
            }
            (Mistake::TakeMarked, stage::DEQUEUE_LINK, _) if word::is_marked(after.link_seen) => {
                let record = &mut self.memory.workers[worker];
                record.right = before.right;
                record.stage = stage::DEQUEUE_MARK;
            }
            (Mistake::OtherPath, stage::DEQUEUE_MARK, stage::SEARCH_HEAD) => {
                *self.memory.node_word(after.own as usize, field::PATH) ^= 1;
            }
            _ => {}
        }
        response
    }

    fn free(&mut self, node: u64) {
        *self.memory.node_word(node as usize, field::RECLAMATION) = 0;
    }

    fn end(&mut self, worker: usize, response: Response) -> Response {
        self.memory.workers[worker].stage = stage::IDLE;
        response
    }

    /// The taker goes on behind the node it has looked at.
    fn pass_over(&mut self, worker: usize) {
        let shape = self.memory.shape;
        let (nodes, last) = (shape.nodes.into(), u64::from(shape.buckets) - 1);
        let record = &mut self.memory.workers[worker];
        record.right = word::successor(record.link_seen);
        record.stage = match record.bucket {
            _ if record.right != nodes => stage::DEQUEUE_LINK,
            bucket if bucket == last => stage::DEQUEUE_CONFIRM,
            _ => stage::DEQUEUE_ADVANCE,
        };
    }

    /// The taker goes on behind the node behind the one it has lost.
    fn pass_next(&mut self, worker: usize) {
        let nodes = u64::from(self.memory.shape.nodes);
        let lost = self.memory.workers[worker].right as usize;
        let next = word::successor(*self.memory.node_word(lost, field::LINK));
        if next != nodes {
            let link = *self.memory.node_word(next as usize, field::LINK);
            if word::successor(link) != nodes {
                self.memory.workers[worker].right = word::successor(link);
            }
        }
    }
}
