//! Turn files written along a run of the pool.

use schedule::script::turn;
use second::{Answer, Program, Record, Response, Shape};

/// Writes records and follows the pool they lead to.
pub struct Recorder {
    program: Program,
    batch: Batch,
}

/// A part of a turn file.
#[derive(Clone, Default)]
pub struct Batch {
    pub bytes: Vec<u8>,
    /// The same. (Who reads them from the bytes is a second caller of the second
    /// program's reader, which is then not built into its loop.)
    pub records: Vec<Record>,
    /// Records that are turns.
    pub turns: usize,
}

impl Recorder {
    /// Begins with an opening.
    pub fn open(shape: Shape) -> Self {
        let mut recorder = Self {
            program: Program::lending(shape.store_words(), shape.workers as usize),
            batch: Batch::default(),
        };
        let opened = recorder.record(Record::Open(shape));
        assert_eq!(opened, Ok(Response::Open));
        recorder
    }

    pub fn record(&mut self, record: Record) -> Answer {
        self.batch.push(record);
        self.program.apply(record)
    }

    /// A whole call of the first worker.
    pub fn call(&mut self, start: Record) -> Response {
        self.record(start).expect("the call can start");
        loop {
            match self.record(turn(0)).expect("the call is in progress") {
                Response::On => {}
                end => return end,
            }
        }
    }

    /// Turns written since the last cut.
    pub fn turns(&self) -> usize {
        self.batch.turns
    }

    /// What was written since the last time.
    pub fn cut(&mut self) -> Batch {
        std::mem::take(&mut self.batch)
    }
}

impl Batch {
    pub fn push(&mut self, record: Record) {
        record.encode(&mut self.bytes);
        self.records.push(record);
        self.turns += usize::from(matches!(record, Record::Step { .. }));
    }

    /// All records but the turns.
    pub fn starts(&self) -> Vec<Record> {
        let records = self.records.iter();
        let starts = records.filter(|record| !matches!(record, Record::Step { .. }));
        starts.copied().collect()
    }

    /// The same batch again and again, up to about so many records.
    pub fn repeated(&self, records: usize) -> Self {
        let times = (records / self.records.len()).max(1);
        Self {
            bytes: self.bytes.repeat(times),
            records: self.records.repeat(times),
            turns: self.turns * times,
        }
    }
}
