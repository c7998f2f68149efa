//! One call made twice: of the library, and of the second program. Answer, every
//! word, every record and the guards are compared.
//!
//! The single calls are made as C makes them, batches through the wrapper.

use std::fmt::Debug;
use std::sync::atomic::{AtomicU64, Ordering};

use schedule::lent::Memory;
use schedule::script::bytes;
use second::{Answer, Record, Records};
use wubraken::{raw, BatchEnd, Pool, Shape, Stop, Worker, LINE};

use super::guarded::{Guarded, GARBAGE, GARBAGE_RECORD};
use super::lent::{Call, Deal, Lent};
use super::translate;

/// What a byte of room is filled with.
const UNWRITTEN: u8 = 0xA5;

static CALLS: AtomicU64 = AtomicU64::new(0);

/// Calls made by this test program so far.
pub fn calls_made() -> u64 {
    CALLS.load(Ordering::Relaxed)
}

/// The same memory lent to both.
#[derive(Clone)]
pub struct Both {
    store: Guarded<u64>,
    table: Guarded<Worker>,
    second: Memory,
}

impl Both {
    pub fn new(store: &[u64], table: &[Worker]) -> Self {
        Self {
            store: Guarded::new(store, !GARBAGE),
            table: Guarded::new(table, GARBAGE_RECORD),
            second: Memory {
                shape: second::Shape::default(),
                store: store.to_vec(),
                workers: translate::table(table),
            },
        }
    }

    /// Memory with so much garbage behind it.
    pub fn with_spare(memory: &Memory, words: usize, records: usize) -> Self {
        let mut store = memory.store.clone();
        store.extend(vec![GARBAGE; words]);
        let mut table = translate::table_back(&memory.workers);
        table.extend(vec![GARBAGE_RECORD; records]);
        Self::new(&store, &table)
    }

    /// Garbage, of these lengths.
    pub fn garbage(words: usize, records: usize) -> Self {
        Self::new(&vec![GARBAGE; words], &vec![GARBAGE_RECORD; records])
    }

    pub fn record(&self, worker: usize) -> Option<Worker> {
        self.table().get(worker).copied()
    }

    pub fn call(&mut self, shape: Shape, call: Call) -> raw::Answer {
        CALLS.fetch_add(1, Ordering::Relaxed);
        let answer = Lent::of(self.store.lent(), self.table.lent()).call(shape, call);
        assert_ne!(answer.number, 6, "{shape:?} {call:?}");
        let expected = translate::answer(self.call_second(shape, call));
        assert_eq!(answer, expected, "{shape:?} {call:?}");
        self.compare(shape, call);
        answer
    }

    fn call_second(&mut self, shape: Shape, call: Call) -> Answer {
        self.second.shape = translate::shape(shape);
        match call {
            Call::Open => self.second.open(self.second.shape),
            Call::Enqueue(worker, arrival) => {
                let arrival = translate::arrival(arrival);
                self.second.put(worker as usize, arrival)
            }
            Call::Dequeue(worker) => self.second.take(worker as usize),
            Call::Step(worker) => self.second.turn(worker as usize),
            narrow => call_second_narrow(&mut self.second, narrow),
        }
    }

    /// Deals turns behind the worker served last.
    pub fn deal(&mut self, shape: Shape, served: u64, deal: Deal) -> raw::Dealt {
        CALLS.fetch_add(1, Ordering::Relaxed);
        let dealt = Lent::of(self.store.lent(), self.table.lent()).deal(shape, served, deal);
        let expected = translate::dealt(self.deal_second(shape, served, deal));
        assert_eq!(dealt, expected, "{shape:?} {served} {deal:?}");
        self.compare(shape, deal);
        dealt
    }

    fn deal_second(&mut self, shape: Shape, served: u64, deal: Deal) -> second::Dealt {
        let (shape, served) = (translate::shape(shape), served as usize);
        let (store, workers) = (&mut self.second.store, &mut self.second.workers);
        match deal {
            Deal::One => second::deal(shape, store, workers, served),
            Deal::Run(turns) => second::deal_run(shape, store, workers, served, turns),
            Deal::Narrow(turns) => second::narrow_deal(shape, store, workers, served, turns),
        }
    }

    /// Fails where the memory is not that of the other.
    pub fn assert_same_memory(&self, other: &Self) {
        assert_eq!(self.store(), other.store());
        assert_eq!(self.table(), other.table());
    }

    /// Runs a batch into so many bytes of room: how far, and the lines.
    pub fn run_batch(
        &mut self,
        shape: &mut Shape,
        input: &[u8],
        room: usize,
    ) -> (BatchEnd, Vec<u8>) {
        let mut out = Guarded::new(&vec![UNWRITTEN; room], !UNWRITTEN);
        let mut pool = Pool::resume(*shape, self.store.lent(), self.table.lent());
        let end = pool.run_batch(input, out.lent());
        let left = pool.shape();

        let (expected, lines) = self.run_batch_second(shape, input, room);
        assert_eq!((end, left), (expected, *shape));
        let (written, rest) = out.contents().split_at(end.written);
        assert_eq!(written, lines);
        assert!(rest.iter().all(|&byte| byte == UNWRITTEN));
        self.compare(*shape, "a batch");
        (end, lines)
    }

    /// Record by record, each on memory that is looked through again.
    fn run_batch_second(
        &mut self,
        shape: &mut Shape,
        input: &[u8],
        room: usize,
    ) -> (BatchEnd, Vec<u8>) {
        self.second.shape = translate::shape(*shape);
        let (mut read, mut lines) = (0, Vec::new());
        let mut records = Records::new(input);
        let stop = loop {
            if lines.len() + LINE > room {
                break Stop::Full;
            }
            let record = match records.next() {
                None => break Stop::Drained,
                Some(Err(refusal)) => break Stop::Halted(translate::refusal(refusal)),
                Some(Ok(record)) => record,
            };
            read += bytes(&[record]).len();
            let answer = self.second.apply(record);
            if let (Record::Open(opened), Ok(_)) = (record, answer) {
                *shape = translate::shape_back(opened);
            }
            second::push_line(&mut lines, &answer);
        };
        let written = lines.len();
        let end = BatchEnd {
            read,
            written,
            stop,
        };
        (end, lines)
    }

    /// The memory, as the library has it.
    pub fn store(&self) -> &[u64] {
        self.store.contents()
    }

    pub fn table(&self) -> &[Worker] {
        self.table.contents()
    }

    fn compare(&self, shape: Shape, call: impl Debug) {
        assert!(
            self.store.contents() == self.second.store,
            "{shape:?} {call:?}: the stores differ"
        );
        let table = translate::table(self.table.contents());
        assert_eq!(table, self.second.workers, "{shape:?} {call:?}");
    }
}

fn call_second_narrow(memory: &mut Memory, call: Call) -> Answer {
    let (shape, store, workers) = (memory.shape, &mut memory.store, &mut memory.workers);
    match call {
        Call::NarrowEnqueue(worker, arrival, turns) => {
            let (worker, arrival) = (worker as usize, translate::arrival(arrival));
            second::narrow_enqueue_start(shape, store, workers, worker, arrival, turns)
        }
        Call::NarrowDequeue(worker, turns) => {
            second::narrow_dequeue_start(shape, store, workers, worker as usize, turns)
        }
        Call::NarrowStep(worker, turns) => {
            second::narrow_step(shape, store, workers, worker as usize, turns)
        }
        other => panic!("{other:?} is not narrow"),
    }
}
