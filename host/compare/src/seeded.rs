//! The random turn files of a seed.

use schedule::script::{put_arrival, take, turn};
use schedule::{reflections, times, write, write_damaged, Generator, Options, Random};
use second::{Answer, Arrival, Program, Record, Response, Shape};

use crate::inputs::Input;

/// Damaged files of a seed.
const DAMAGED: u64 = 25;
/// Histories of a seed, all in one file.
const HISTORIES: u64 = 200;

/// Openings of every shape, reuse, pauses and refusals.
pub fn every_shape(seed: u64, records: u64) -> Input {
    random_file(seed, records, Options::default())
}

/// One opening with few nodes: they are used again and again.
pub fn narrow(seed: u64, records: u64) -> Input {
    let random = &mut Random::new(!seed);
    let shape = Shape {
        workers: random.between(2, 6),
        nodes: random.between(1, 8),
        buckets: random.between(1, 3),
        width: random.between(1, 4),
    };
    let options = Options {
        one_opening: true,
        shape: Some(shape),
        ..Options::default()
    };
    random_file(seed, records, options)
}

/// One opening of any shape and nothing refused.
pub fn unrefused(seed: u64, records: u64) -> Input {
    let options = Options {
        one_opening: true,
        no_refusals: true,
        ..Options::default()
    };
    random_file(seed, records, options)
}

fn random_file(seed: u64, records: u64, options: Options) -> Input {
    let mut bytes = Vec::new();
    write(seed, records, options, &mut bytes).expect("a vector takes all");
    input(format!("seed {seed}"), seed, bytes, false)
}

/// Damaged files, from very short ones to one of all the records.
pub fn damaged(seed: u64, records: u64) -> impl Iterator<Item = Input> {
    (0..DAMAGED).map(move |nth| {
        let length = match nth {
            0 => records,
            _ => (1 + nth * nth).min(records),
        };
        let mut bytes = Vec::new();
        let options = Options::default();
        write_damaged(part(seed, nth), length, options, &mut bytes).expect("a vector takes all");
        input(format!("seed {seed}, file {nth}"), seed, bytes, false)
    })
}

/// Many small histories in one file.
pub fn histories(seed: u64) -> Input {
    let mut bytes = Vec::new();
    for nth in 0..HISTORIES {
        history(part(seed, nth), &mut bytes);
    }
    input(format!("seed {seed}"), seed, bytes, true)
}

/// One opening, 100 to 300 records and mostly two to four workers. Every second
/// history then ends its calls and takes all that is left.
pub fn history(seed: u64, bytes: &mut Vec<u8>) {
    let random = &mut Random::new(!seed);
    let records = random.between(100, 300) as usize;
    let mut history = match random.one_in(2) {
        true => any_schedule(seed, random, records),
        false => pauses(random, records),
    };
    if seed % 2 == 0 {
        history.drain();
    }
    bytes.append(&mut history.bytes);
}

fn small_shape(random: &mut Random) -> Shape {
    let most_workers = random.choose(&[4, 4, 4, 4, 12]);
    Shape {
        workers: random.between(2, most_workers),
        nodes: random.between(2, most_workers + 2),
        buckets: random.between(1, 3),
        width: random.between(1, 6),
    }
}

fn any_schedule(seed: u64, random: &mut Random, records: usize) -> Followed {
    let options = Options {
        one_opening: true,
        no_refusals: random.one_in(2),
        shape: Some(small_shape(random)),
    };
    let mut generator = Generator::new(seed, options);
    let mut bytes = Vec::new();
    for _ in 0..records {
        generator.next_record().0.encode(&mut bytes);
    }
    let program = generator.program().clone();
    Followed { program, bytes }
}

/// Some workers pause inside a call while others make whole ones.
fn pauses(random: &mut Random, records: usize) -> Followed {
    let shape = small_shape(random);
    let choice = Choice::of(random, shape);
    let mut followed = Followed::default();
    let _ = followed.apply(Record::Open(shape));
    while followed.bytes.len() < 4 * records {
        let worker = random.below(shape.workers) as u8;
        if followed.is_busy(worker) {
            // Let it pause a little longer.
            if !random.one_in(4) {
                continue;
            }
        } else {
            let _ = followed.apply(choice.start(random, worker));
        }
        if random.one_in(3) {
            followed.turns(worker, random.between(1, 5));
        } else {
            followed.turns(worker, u32::MAX);
        }
    }
    followed
}

/// What the times and orders of a history are chosen from: mostly few.
struct Choice {
    times: Vec<u32>,
    reflection_orders: Vec<u32>,
}

impl Choice {
    fn of(random: &mut Random, shape: Shape) -> Self {
        let times = match random.below(3) {
            0 => (0..100).map(|_| times::any(random, shape)).collect(),
            _ => times::few(random, shape),
        };
        let reflection_orders = reflections::reflection_orders(random);
        Self {
            times,
            reflection_orders,
        }
    }

    fn start(&self, random: &mut Random, worker: u8) -> Record {
        if random.one_in(2) {
            return take(worker);
        }
        let arrival = Arrival {
            time: random.choose(&self.times),
            path: random.between(0, Arrival::MAX_PATH),
            order: random.choose(&self.reflection_orders),
            distance: random.between(1, Arrival::MAX_DISTANCE),
        };
        put_arrival(worker, arrival)
    }
}

/// A turn file, and the pool it leads to.
#[derive(Default)]
struct Followed {
    program: Program,
    bytes: Vec<u8>,
}

impl Followed {
    fn apply(&mut self, record: Record) -> Answer {
        record.encode(&mut self.bytes);
        self.program.apply(record)
    }

    fn is_busy(&self, worker: u8) -> bool {
        self.program.workers()[usize::from(worker)].is_busy()
    }

    /// At most so many turns, while the worker is busy; the last answer.
    fn turns(&mut self, worker: u8, most: u32) -> Option<Answer> {
        let mut answer = None;
        for _ in 0..most {
            if !self.is_busy(worker) {
                break;
            }
            answer = Some(self.apply(turn(worker)));
        }
        answer
    }

    /// Ends all calls, then takes until empty.
    fn drain(&mut self) {
        for worker in 0..self.program.shape().workers as u8 {
            self.turns(worker, u32::MAX);
        }
        while self.apply(take(0)).is_ok() {
            if self.turns(0, u32::MAX) == Some(Ok(Response::Empty)) {
                break;
            }
        }
    }
}

/// The seed of a part of a seed.
fn part(seed: u64, nth: u64) -> u64 {
    seed.wrapping_mul(256).wrapping_add(nth)
}

fn input(name: String, seed: u64, bytes: Vec<u8>, is_small: bool) -> Input {
    Input {
        name,
        bytes,
        output: None,
        seed: Some(seed),
        is_small,
    }
}
