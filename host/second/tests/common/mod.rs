//! Lent memory for tests. Every call through it checks that a refusal changes
//! nothing and that the spare words and records are never changed.
#![allow(dead_code)]

pub mod noted;
pub mod program;

use std::ops::{Deref, DerefMut};

use schedule::lent::small_shape;
pub use schedule::lent::{Memory, GARBAGE, GARBAGE_RECORD};
pub use schedule::script::arrival;
use schedule::{to_the_end, Random, Script};
use second::layout::{field, CURRENT};
use second::{push_line, stage, word, Answer, Arrival, Record, Refusal, Response, Shape, Worker};

pub const SPARE_WORDS: usize = 5;
pub const SPARE_RECORDS: usize = 3;

/// The response to a dequeue of [`arrival`].
pub fn took(time: u64) -> Answer {
    Ok(Response::Took {
        time,
        path: 7,
        order: 1,
        distance: 3,
        energy: 1_864_135,
    })
}

pub const ON: Answer = Ok(Response::On);
pub const EMPTY: Answer = Ok(Response::Empty);

pub fn begun(ticket: u64) -> Answer {
    Ok(Response::Begun(ticket))
}

pub fn stored(ticket: u64) -> Answer {
    Ok(Response::Stored(ticket))
}

pub fn refused(number: u8) -> Answer {
    use Refusal::*;
    let refusal = match number {
        1 => ShapeOutsideLimits,
        2 => MemoryTooShort,
        3 => FieldOutOfRange,
        4 => NoSuchWorker,
        5 => ArrivalOutOfRange,
        7 => UnknownMark,
        8 => RecordCut,
        9 => WorkerBusy,
        10 => WorkerIdle,
        11 => CountExhausted,
        12 => NoFreeNode,
        13 => EchogramOutsideLimits,
        14 => SlotPastRow,
        15 => SumTooLarge,
        16 => AllIdle,
        17 => SilentRow,
        19 => BufferTooShort,
        _ => panic!("no refusal is {number}"),
    };
    assert_eq!(refusal.number(), number);
    Err(refusal)
}

/// Time, reflection order and ticket.
pub type Key = (u64, u64, u64);

/// A start or a turn.
#[derive(Clone, Copy, Debug)]
pub enum Call {
    Put(Arrival),
    Take,
    Turn,
}

/// Memory with something spare behind it.
#[derive(Clone, Debug, PartialEq)]
pub struct Lent(pub Memory);

impl Deref for Lent {
    type Target = Memory;

    fn deref(&self) -> &Memory {
        &self.0
    }
}

impl DerefMut for Lent {
    fn deref_mut(&mut self) -> &mut Memory {
        &mut self.0
    }
}

/// Any memory, also one that is too short.
impl From<Memory> for Lent {
    fn from(memory: Memory) -> Self {
        Self(memory)
    }
}

impl Lent {
    /// Garbage everywhere, just long enough and a spare behind.
    pub fn garbage(shape: Shape) -> Self {
        Self(Memory {
            shape,
            store: vec![GARBAGE; shape.store_words() + SPARE_WORDS],
            workers: vec![GARBAGE_RECORD; shape.workers as usize + SPARE_RECORDS],
        })
    }

    pub fn open(shape: Shape) -> Self {
        let mut lent = Self::garbage(shape);
        assert_eq!(lent.reopen(), Ok(Response::Open));
        lent
    }

    /// Opened, with these arrivals stored by worker 0.
    pub fn with_stored(shape: Shape, times: &[u32]) -> Self {
        let mut lent = Self::open(shape);
        for &time in times {
            lent.store_whole(0, time);
        }
        lent
    }

    /// Opened and led by a script, which must print its lines.
    pub fn play(script: &Script) -> Self {
        let mut lent = Self::open(opening(script));
        for (record, line) in steps(script) {
            assert_eq!(printed(lent.apply(record)), line);
        }
        lent
    }

    pub fn apply(&mut self, record: Record) -> Answer {
        self.checked(|memory| memory.apply(record))
    }

    pub fn reopen(&mut self) -> Answer {
        self.checked(|memory| memory.open(memory.shape))
    }

    pub fn put(&mut self, worker: usize, time: u32) -> Answer {
        self.put_arrival(worker, arrival(time))
    }

    pub fn put_arrival(&mut self, worker: usize, arrival: Arrival) -> Answer {
        self.checked(|memory| memory.put(worker, arrival))
    }

    pub fn take(&mut self, worker: usize) -> Answer {
        self.checked(|memory| memory.take(worker))
    }

    pub fn turn(&mut self, worker: usize) -> Answer {
        self.checked(|memory| memory.turn(worker))
    }

    /// The call that looks at all lent memory.
    pub fn whole(&mut self, worker: usize, call: Call) -> Answer {
        match call {
            Call::Put(arrival) => self.put_arrival(worker, arrival),
            Call::Take => self.take(worker),
            Call::Turn => self.turn(worker),
        }
    }

    /// The narrow call. No other worker's record may change; a refusal changes
    /// nothing, unless there were turns before it.
    pub fn narrow(&mut self, worker: usize, call: Call, turns: u64) -> Answer {
        let before = self.clone();
        let answer = narrow(self, worker, call, turns);
        if turns == 0 && answer.is_err() {
            assert_eq!(*self, before, "a refusal changed lent memory");
        }
        self.keeps_beyond(&before);
        let mut others = before;
        if let Some(record) = others.workers.get_mut(worker) {
            *record = self.workers[worker];
        }
        assert_eq!(self.workers, others.workers);
        answer
    }

    /// That many turns, all answered `on`.
    pub fn turns(&mut self, worker: usize, turns: usize) {
        for _ in 0..turns {
            assert_eq!(self.turn(worker), ON);
        }
    }

    /// Turns until the worker stands at this stage.
    pub fn turns_to(&mut self, worker: usize, stage: u64) {
        while self.workers[worker].stage != stage {
            assert_eq!(self.turn(worker), ON);
        }
    }

    /// Turns to the end of the call: how many, and the last answer.
    pub fn finish(&mut self, worker: usize) -> (usize, Answer) {
        to_the_end(1_000, ON, || self.turn(worker))
    }

    /// A whole put.
    pub fn store_whole(&mut self, worker: usize, time: u32) {
        let ticket = match self.put(worker, time) {
            Ok(Response::Begun(ticket)) => ticket,
            _ => panic!("put of {time} was refused"),
        };
        assert_eq!(self.finish(worker).1, stored(ticket));
    }

    /// A whole take.
    pub fn take_whole(&mut self, worker: usize) -> Answer {
        self.take(worker).unwrap();
        self.finish(worker).1
    }

    /// Bucket and epoch of the current word.
    pub fn current(&self) -> (u64, u64) {
        (
            word::current_bucket(self.store[CURRENT]),
            word::current_epoch(self.store[CURRENT]),
        )
    }

    pub fn stage(&self, worker: usize) -> u64 {
        self.workers[worker].stage
    }

    /// Times met from a bucket's head to the end.
    pub fn times(&mut self, bucket: usize) -> Vec<u64> {
        self.keys(bucket).iter().map(|key| key.0).collect()
    }

    /// Keys, likewise.
    pub fn keys(&mut self, bucket: usize) -> Vec<Key> {
        let mut keys = Vec::new();
        let mut node = word::successor(*self.head(bucket)) as usize;
        while node != self.shape.nodes as usize {
            keys.push(self.key(node));
            assert!(keys.len() <= self.shape.nodes as usize, "cycle");
            node = word::successor(*self.node_word(node, field::LINK)) as usize;
        }
        keys
    }

    pub fn key(&mut self, node: usize) -> Key {
        let words = [field::TIME, field::ORDER, field::TICKET];
        let [time, order, ticket] = words.map(|word| *self.node_word(node, word));
        (time, order, ticket)
    }

    pub fn set_key(&mut self, node: usize, (time, order, ticket): Key) {
        *self.node_word(node, field::TIME) = time;
        *self.node_word(node, field::ORDER) = order;
        *self.node_word(node, field::TICKET) = ticket;
    }

    /// Makes a call and checks what every call must keep.
    fn checked(&mut self, call: impl FnOnce(&mut Memory) -> Answer) -> Answer {
        let before = self.clone();
        let answer = call(self);
        if answer.is_err() {
            assert_eq!(*self, before, "a refusal changed lent memory");
        }
        self.keeps_beyond(&before);
        answer
    }

    /// Words and records beyond the shape's are as they were.
    pub fn keeps_beyond(&self, before: &Self) {
        let words = self.shape.store_words();
        let records = self.shape.workers as usize;
        assert_eq!(self.store.len(), before.store.len());
        assert_eq!(self.store.get(words..), before.store.get(words..));
        assert_eq!(self.workers.get(records..), before.workers.get(records..));
    }
}

/// The narrow call on any memory.
pub fn narrow(memory: &mut Memory, worker: usize, call: Call, turns: u64) -> Answer {
    let (store, workers) = (&mut memory.store, &mut memory.workers);
    match call {
        Call::Put(arrival) => {
            second::narrow_enqueue_start(memory.shape, store, workers, worker, arrival, turns)
        }
        Call::Take => second::narrow_dequeue_start(memory.shape, store, workers, worker, turns),
        Call::Turn => second::narrow_step(memory.shape, store, workers, worker, turns),
    }
}

/// The memory with garbage behind.
pub fn lend(memory: &Memory) -> Lent {
    let mut lent = Lent::garbage(memory.shape);
    lent.store[..memory.store.len()].copy_from_slice(&memory.store);
    lent.workers[..memory.workers.len()].copy_from_slice(&memory.workers);
    lent
}

/// Memory of a small shape, every field somewhere in its range.
pub fn any_in_range(random: &mut Random) -> Memory {
    let shape = small_shape(random);
    Memory::in_range(random, shape)
}

/// A record at a stage, of a kind that fits it.
pub fn record_at(stage: u64) -> Worker {
    Worker {
        stage,
        kind: u64::from(stage >= stage::DEQUEUE_CURRENT),
        ..Worker::default()
    }
}

/// The shape that a script opens with.
pub fn opening(script: &Script) -> Shape {
    match script.records()[0] {
        Record::Open(shape) => shape,
        other => panic!("{other:?}"),
    }
}

/// The records of a script after its opening, with their lines.
pub fn steps(script: &Script) -> impl Iterator<Item = (Record, &str)> {
    let lines = script.lines().iter().map(String::as_str);
    script.records().iter().copied().zip(lines).skip(1)
}

/// The line of an answer.
pub fn printed(answer: Answer) -> String {
    let mut line = Vec::new();
    push_line(&mut line, &answer);
    String::from_utf8(line).unwrap().trim_end().to_string()
}
