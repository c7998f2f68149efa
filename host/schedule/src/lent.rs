//! Lent memory for the second program: calls on it, and random contents, every
//! field in its range or one pushed out of it.

use random::Random;
use second::layout::{field, head_at, node_at, CURRENT, LAST_ALLOCATED, NODE_WORDS, STARTED};
use second::{stage, word, Answer, Arrival, Record, Shape, Worker};

/// A shape of few words.
pub fn small_shape(random: &mut Random) -> Shape {
    Shape {
        workers: random.between(1, 3),
        nodes: random.between(1, 4),
        buckets: random.between(1, 3),
        width: 10,
    }
}

/// Out of range in every field.
pub const GARBAGE: u64 = 0xDEAD_BEEF_DEAD_BEEF;

pub const GARBAGE_RECORD: Worker = Worker {
    stage: GARBAGE,
    kind: GARBAGE,
    own: GARBAGE,
    bucket: GARBAGE,
    left: GARBAGE,
    right: GARBAGE,
    link_seen: GARBAGE,
    current_seen: GARBAGE,
    ticket: GARBAGE,
};

/// A shape, and the words and records lent to its pool.
#[derive(Clone, Debug, PartialEq, Eq)]
pub struct Memory {
    pub shape: Shape,
    pub store: Vec<u64>,
    pub workers: Vec<Worker>,
}

/// A field of store or table.
#[derive(Clone, Copy, Debug, PartialEq, Eq)]
pub enum Field {
    Current,
    Started,
    LastAllocated,
    Head(usize),
    /// A node and one of its words, by [`field`].
    Node(usize, usize),
    /// A worker and one of its record's fields.
    Record(usize, RecordField),
}

/// The fields of a worker's record, by name.
macro_rules! record_fields {
    ($($name:ident $field:ident),+) => {
        #[derive(Clone, Copy, Debug, PartialEq, Eq)]
        pub enum RecordField {
            $($name),+
        }

        const RECORD_FIELDS: [RecordField; 9] = [$($name),+];

        impl RecordField {
            fn of(self, record: &mut Worker) -> &mut u64 {
                match self {
                    $($name => &mut record.$field),+
                }
            }
        }
    };
}

use RecordField::*;
record_fields!(
    Stage stage, Kind kind, Own own, Bucket bucket, Left left, Right right,
    LinkSeen link_seen, CurrentSeen current_seen, Ticket ticket
);

/// Every field of a shape's words and records. A stage comes before the fields
/// whose range it decides.
pub fn fields(shape: Shape) -> Vec<Field> {
    let mut fields = vec![Field::Current, Field::Started, Field::LastAllocated];
    fields.extend((0..shape.buckets as usize).map(Field::Head));
    for node in 0..shape.nodes as usize {
        fields.extend((0..NODE_WORDS).map(|word| Field::Node(node, word)));
    }
    for worker in 0..shape.workers as usize {
        fields.extend(RECORD_FIELDS.map(|field| Field::Record(worker, field)));
    }
    fields
}

/// The calls, each of which checks everything.
impl Memory {
    /// The shape changes if the opening is not refused.
    pub fn open(&mut self, shape: Shape) -> Answer {
        let answer = second::open(shape, &mut self.store, &mut self.workers)?;
        self.shape = shape;
        Ok(answer)
    }

    pub fn put(&mut self, worker: usize, arrival: Arrival) -> Answer {
        let (store, workers) = (&mut self.store, &mut self.workers);
        second::enqueue_start(self.shape, store, workers, worker, arrival)
    }

    pub fn take(&mut self, worker: usize) -> Answer {
        second::dequeue_start(self.shape, &mut self.store, &mut self.workers, worker)
    }

    pub fn turn(&mut self, worker: usize) -> Answer {
        second::step(self.shape, &mut self.store, &mut self.workers, worker)
    }

    pub fn apply(&mut self, record: Record) -> Answer {
        match record {
            Record::Open(shape) => self.open(shape),
            Record::EnqueueStart { worker, arrival } => self.put(worker.into(), arrival),
            Record::DequeueStart { worker } => self.take(worker.into()),
            Record::Step { worker } => self.turn(worker.into()),
        }
    }

    pub fn is_in_range(&self) -> bool {
        second::in_range(self.shape, &self.store, &self.workers)
    }
}

/// The contents.
impl Memory {
    /// Zeros, with no pool open.
    pub fn zeros(words: usize, records: usize) -> Self {
        Self {
            shape: Shape::default(),
            store: vec![0; words],
            workers: vec![Worker::default(); records],
        }
    }

    /// The words and records of a shape and no more, every field somewhere in its
    /// range.
    pub fn in_range(random: &mut Random, shape: Shape) -> Self {
        let mut memory = Self::zeros(shape.store_words(), shape.workers as usize);
        memory.shape = shape;
        for field in fields(shape) {
            *memory.at(field) = memory.draw(random, field);
        }
        memory
    }

    fn draw(&self, random: &mut Random, field: Field) -> u64 {
        let value = self.range(field).draw(random);
        match field {
            // Nothing can be advanced to.
            Field::Record(_, Stage)
                if value == stage::DEQUEUE_ADVANCE && self.shape.buckets == 1 =>
            {
                stage::DEQUEUE_CONFIRM
            }
            // Every bucket, often with a small epoch: words seen are then often
            // those in the store.
            Field::Current | Field::Record(_, CurrentSeen) => {
                let epoch = word::current_epoch(value);
                word::current(random.below(self.shape.buckets).into(), epoch)
            }
            // Few of them, so that keys often differ only in what comes behind.
            Field::Node(_, field::TIME | field::ORDER) if !random.one_in(3) => {
                random.below(2).into()
            }
            _ => value,
        }
    }

    pub fn head(&mut self, bucket: usize) -> &mut u64 {
        &mut self.store[head_at(bucket)]
    }

    /// A word of a node, by [`field`].
    pub fn node_word(&mut self, node: usize, word: usize) -> &mut u64 {
        &mut self.store[node_at(self.shape.buckets as usize, node) + word]
    }

    pub fn at(&mut self, field: Field) -> &mut u64 {
        match field {
            Field::Current => &mut self.store[CURRENT],
            Field::Started => &mut self.store[STARTED],
            Field::LastAllocated => &mut self.store[LAST_ALLOCATED],
            Field::Head(bucket) => self.head(bucket),
            Field::Node(node, word) => self.node_word(node, word),
            Field::Record(worker, field) => field.of(&mut self.workers[worker]),
        }
    }

    /// The range of a field, with the other fields as they are; of a stage, the
    /// range of any stage.
    pub fn range(&self, field: Field) -> Range {
        let nodes = u64::from(self.shape.nodes);
        let buckets = u64::from(self.shape.buckets);
        let current = word::current(buckets - 1, word::MAX_COUNT);
        let link = 2 * nodes + 1;
        let distance = Arrival::MAX_DISTANCE.into();
        match field {
            Field::Current => Range::up_to(current),
            Field::Started => Range::up_to(word::MAX_COUNT),
            Field::LastAllocated => Range::up_to(nodes - 1),
            Field::Head(_) => Range::even(link - 1),
            Field::Node(node, word) => {
                let node = &self.store[node_at(self.shape.buckets as usize, node)..];
                match word {
                    field::LINK => Range::up_to(link),
                    field::PATH => Range::up_to(Arrival::MAX_PATH.into()),
                    field::ORDER => Range::up_to(Arrival::MAX_ORDER.into()),
                    field::DISTANCE if node[field::RECLAMATION] == 0 => Range::up_to(distance),
                    field::DISTANCE => Range::between(1, distance),
                    field::RECLAMATION if node[field::DISTANCE] == 0 => Range::up_to(0),
                    field::RECLAMATION => Range::up_to(2 + word::MAX_COUNT),
                    _ => Range::up_to(word::MAX_COUNT),
                }
            }
            Field::Record(worker, field) => match (field, self.workers[worker].stage) {
                (Stage, _) => Range::up_to(stage::DEQUEUE_CONFIRM),
                (Kind, 0..=3) => Range::up_to(1),
                (Kind, 4..=7) => Range::up_to(0),
                (Kind, _) => Range::between(1, 1),
                (Own, _) => Range::up_to(nodes - 1),
                (Bucket, 12) => Range::up_to(buckets - 2),
                (Bucket, _) => Range::up_to(buckets - 1),
                (Left, _) => Range::up_to(buckets + nodes - 1),
                (Right, 2 | 3 | 10 | 11) => Range::up_to(nodes - 1),
                (Right, _) => Range::up_to(nodes),
                (LinkSeen, _) => Range::up_to(link),
                (CurrentSeen, _) => Range::up_to(current),
                (Ticket, _) => Range::up_to(word::MAX_COUNT),
            },
        }
    }
}

/// The values that a field may have.
#[derive(Clone, Copy, Debug)]
pub struct Range {
    pub least: u64,
    pub most: u64,
    even: bool,
}

impl Range {
    fn between(least: u64, most: u64) -> Self {
        Self {
            least,
            most,
            even: false,
        }
    }

    fn up_to(most: u64) -> Self {
        Self::between(0, most)
    }

    fn even(most: u64) -> Self {
        Self {
            even: true,
            ..Self::up_to(most)
        }
    }

    pub fn contains(&self, value: u64) -> bool {
        (self.least..=self.most).contains(&value) && !(self.even && value % 2 == 1)
    }

    fn draw(&self, random: &mut Random) -> u64 {
        let step = if self.even { 2 } else { 1 };
        self.least + step * often_small(random, (self.most - self.least) / step)
    }

    /// Values out of the range: next to it, far from it, and those that are in
    /// it once their high bits are lost.
    pub fn outside(&self) -> impl Iterator<Item = u64> {
        let range = *self;
        [
            self.least.wrapping_sub(1),
            self.least + 1,
            self.most + 1,
            self.most + 2,
            self.most | 1 << 16,
            self.most | 1 << 32,
            self.least | 1 << 32,
            self.most | 1 << 63,
            self.least | 1 << 63,
            u64::MAX - 1,
            u64::MAX,
        ]
        .into_iter()
        .filter(move |&value| !range.contains(value))
    }
}

/// Mostly small, often at the bound, sometimes anything in between.
pub fn often_small(random: &mut Random, most: u64) -> u64 {
    match random.below(4) {
        0 => most,
        1 => random.draw() % (most + 1),
        _ => u64::from(random.below(9)).min(most),
    }
}
