//! The wrapper's calls, record by record, against the second program.

mod common;

use common::guarded::{Guarded, GARBAGE, GARBAGE_RECORD};
use common::seeds::on_seeds;
use common::translate;
use schedule::{by_hand, orders, Generator, Options, Script};
use second::{Program, Record, LENT_RECORDS, LENT_WORDS};
use wubraken::raw::{self, kind};
use wubraken::{Pool, Refusal, Shape, Step, Stop, Worker};

/// What the wrapper answers, as the library would put it.
fn answer(kind: u64) -> raw::Answer {
    raw::Answer {
        kind,
        ..raw::Answer::default()
    }
}

fn begun(ticket: u64) -> raw::Answer {
    raw::Answer {
        ticket,
        ..answer(kind::BEGUN)
    }
}

fn stepped(step: Step) -> raw::Answer {
    match step {
        Step::On => answer(kind::ON),
        Step::Stored(ticket) => raw::Answer {
            ticket,
            ..answer(kind::STORED)
        },
        Step::Took(taken) => raw::Answer {
            time: taken.time.into(),
            path: taken.path.into(),
            order: taken.order.into(),
            distance: taken.distance.into(),
            energy: taken.energy.into(),
            ..answer(kind::TOOK)
        },
        Step::Empty => answer(kind::EMPTY),
        other => panic!("{other:?} is new"),
    }
}

fn refused(refusal: Refusal) -> raw::Answer {
    raw::Answer {
        number: refusal.number(),
        ..answer(kind::REFUSED)
    }
}

type Lent<'a> = Pool<&'a mut [u64], &'a mut [Worker]>;

fn apply(pool: &mut Lent<'_>, record: Record) -> raw::Answer {
    match record {
        Record::Open(shape) => pool
            .reopen(translate::shape_back(shape))
            .map(|()| answer(kind::OPEN)),
        Record::EnqueueStart { worker, arrival } => pool
            .enqueue(worker.into(), translate::arrival_back(arrival))
            .map(begun),
        Record::DequeueStart { worker } => pool.dequeue(worker.into()).map(begun),
        Record::Step { worker } => pool.step(worker.into()).map(stepped),
    }
    .unwrap_or_else(refused)
}

/// A pool beside the second program, in memory like the program's.
struct Beside {
    shape: Shape,
    store: Guarded<u64>,
    table: Guarded<Worker>,
}

impl Beside {
    fn new() -> Self {
        Self {
            shape: Shape::default(),
            store: Guarded::new(&[0; LENT_WORDS], GARBAGE),
            table: Guarded::new(&[Worker::default(); LENT_RECORDS], GARBAGE_RECORD),
        }
    }

    fn follow(&mut self, record: Record, expected: second::Answer, program: &Program) {
        let mut pool = Pool::resume(self.shape, self.store.lent(), self.table.lent());
        let answer = apply(&mut pool, record);
        self.shape = pool.shape();
        assert_eq!(answer, translate::answer(expected), "{record:?}");
        assert_eq!(self.shape, translate::shape_back(program.shape()));
        assert!(self.store.contents() == program.store(), "{record:?}");
        assert!(translate::table(self.table.contents()) == program.workers());
    }
}

#[test]
fn random_schedules() {
    on_seeds("records", |random| {
        let mut generator = Generator::new(random.draw(), Options::default());
        let mut beside = Beside::new();
        for _ in 0..60_000 {
            let (record, expected) = generator.next_record();
            beside.follow(record, expected, generator.program());
        }
    });
}

fn scripts() -> Vec<Script> {
    let by_hand = by_hand::cases().into_iter().map(|(_, script)| script);
    let orders = orders::cases().into_iter().map(|(_, script)| script);
    by_hand.chain(orders).collect()
}

#[test]
fn cases_by_hand_one_by_one() {
    for script in scripts() {
        let (mut program, mut beside) = (Program::new(), Beside::new());
        for &record in script.records() {
            let expected = program.apply(record);
            beside.follow(record, expected, &program);
        }
    }
}

#[test]
fn cases_by_hand_as_a_batch() {
    for script in scripts() {
        let mut pool = Pool::resume(Shape::default(), [0; 1_000], [Worker::default(); 64]);
        let mut out = [0; 8_192];
        let end = pool.run_batch(&script.bytes(), &mut out);
        assert_eq!(end.stop, Stop::Drained);
        assert_eq!(&out[..end.written], script.output().as_bytes());
    }
}
