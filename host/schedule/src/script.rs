//! Records by hand, and turn files of them with the lines they must print.

use second::{Arrival, Record, Shape};

/// Grows record by record; every step says what it prints.
#[derive(Clone, Debug, Default)]
pub struct Script {
    records: Vec<Record>,
    lines: Vec<String>,
    /// Calls started since the opening.
    started: u64,
}

impl Script {
    /// A script that begins with an opening.
    pub fn open(workers: u32, nodes: u32, buckets: u32, width: u32) -> Self {
        Self::default().opened(workers, nodes, buckets, width)
    }

    /// An opening, after which calls are counted anew.
    pub fn opened(mut self, workers: u32, nodes: u32, buckets: u32, width: u32) -> Self {
        self.started = 0;
        self.and(open(workers, nodes, buckets, width), "open")
    }

    pub fn records(&self) -> &[Record] {
        &self.records
    }

    /// One line a record.
    pub fn lines(&self) -> &[String] {
        &self.lines
    }

    /// The turn file.
    pub fn bytes(&self) -> Vec<u8> {
        bytes(&self.records)
    }

    /// What the turn file prints.
    pub fn output(&self) -> String {
        self.lines.iter().map(|line| format!("{line}\n")).collect()
    }

    /// Any record, with its line.
    pub fn and(mut self, record: Record, line: &str) -> Self {
        self.records.push(record);
        self.lines.push(line.to_string());
        self
    }

    /// A record that is refused.
    pub fn refused(self, record: Record, number: u8) -> Self {
        self.and(record, &format!("no {number}"))
    }

    /// A put begins.
    pub fn put(self, worker: u8, time: u32) -> Self {
        self.begin(put(worker, time))
    }

    /// A take begins.
    pub fn take(self, worker: u8) -> Self {
        self.begin(take(worker))
    }

    /// A call begins, with the next ticket.
    pub fn begin(mut self, start: Record) -> Self {
        self.started += 1;
        let line = format!("begun {}", self.started);
        self.and(start, &line)
    }

    /// Turns after which the call still goes on.
    pub fn turns(mut self, worker: u8, turns: usize) -> Self {
        for _ in 0..turns {
            self = self.and(turn(worker), "on");
        }
        self
    }

    /// The last turns of a call, and its answer.
    pub fn end(self, worker: u8, turns: usize, answer: &str) -> Self {
        self.turns(worker, turns - 1).and(turn(worker), answer)
    }

    /// A whole put of so many turns.
    pub fn stored(self, worker: u8, time: u32, turns: usize) -> Self {
        self.stored_arrival(worker, arrival(time), turns)
    }

    /// The same of any arrival.
    pub fn stored_arrival(self, worker: u8, arrival: Arrival, turns: usize) -> Self {
        let begun = self.begin(put_arrival(worker, arrival));
        let answer = format!("stored {}", begun.started);
        begun.end(worker, turns, &answer)
    }

    /// A whole take of so many turns.
    pub fn taken(self, worker: u8, turns: usize, answer: &str) -> Self {
        self.take(worker).end(worker, turns, answer)
    }
}

/// The bytes of some records.
pub fn bytes(records: &[Record]) -> Vec<u8> {
    let mut bytes = Vec::new();
    for record in records {
        record.encode(&mut bytes);
    }
    bytes
}

pub fn shape(workers: u32, nodes: u32, buckets: u32, width: u32) -> Shape {
    Shape {
        workers,
        nodes,
        buckets,
        width,
    }
}

pub fn open(workers: u32, nodes: u32, buckets: u32, width: u32) -> Record {
    Record::Open(shape(workers, nodes, buckets, width))
}

/// The arrival that scripts put at a time.
pub fn arrival(time: u32) -> Arrival {
    Arrival {
        time,
        path: 7,
        order: 1,
        distance: 3,
    }
}

/// The same of any reflection order. The path tells it from others of its time and order.
pub fn reflection(time: u32, order: u32, path: u32) -> Arrival {
    Arrival {
        path,
        order,
        ..arrival(time)
    }
}

/// The line of a take that answers [`arrival`].
pub fn took(time: u32) -> String {
    took_reflection(arrival(time))
}

/// The line of a take that answers a [`reflection`].
pub fn took_reflection(arrival: Arrival) -> String {
    let Arrival {
        time, path, order, ..
    } = arrival;
    format!("took {time} {path} {order} 1864135")
}

pub fn put(worker: u8, time: u32) -> Record {
    put_arrival(worker, arrival(time))
}

pub fn put_arrival(worker: u8, arrival: Arrival) -> Record {
    Record::EnqueueStart { worker, arrival }
}

pub fn take(worker: u8) -> Record {
    Record::DequeueStart { worker }
}

pub fn turn(worker: u8) -> Record {
    Record::Step { worker }
}
