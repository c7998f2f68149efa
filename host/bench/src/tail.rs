//! What the tail costs: arrivals far behind the span of the buckets, which all lie
//! in the last one.

use std::io;
use std::mem;

use schedule::script::{put, take};
use schedule::Random;
use second::{Record, Response, Shape};

use crate::arguments::Arguments;
use crate::heap;
use crate::hold::{self, check_lines, check_times, time_holding};
use crate::hold_model::{latest_first, Draws, Model, Run, Starts};
use crate::hold_narrow;
use crate::recorder::{Batch, Recorder};
use crate::report::heading;
use crate::svg::{Curve, Panel, Picture};
use crate::timing::{best, nanoseconds_each};

const ARRIVALS: [usize; 2] = [512, 4_000];
/// Per cent of them in the tail.
const SHARES: [usize; 4] = [0, 1, 10, 50];

/// What is done, and timed.
#[derive(Clone, Copy)]
struct Scene {
    name: &'static str,
    /// A run in pieces; only the first of them opens the pool.
    pieces: fn(&Job, u64) -> Vec<Run>,
    /// Only the tail is in the pool.
    is_tail_alone: bool,
}

const SCENES: [Scene; 4] = [
    Scene {
        name: "put all, take all",
        pieces: Job::all,
        is_tail_alone: false,
    },
    Scene {
        name: "hold beside the tail",
        pieces: Job::beside,
        is_tail_alone: false,
    },
    Scene {
        name: "put the tail, take it",
        pieces: Job::tail,
        is_tail_alone: true,
    },
    Scene {
        name: "the same, ever later",
        pieces: Job::ever_later,
        is_tail_alone: true,
    },
];

pub fn run(arguments: &Arguments) -> io::Result<()> {
    heading(
        "The tail: nanoseconds of a put and a take with a share of the arrivals in the last bucket",
        "(put all, take all: the whole of a job, whose arrivals are put in a random order, so many per\n \
         cent of them far behind the span of the buckets. Hold beside the tail: only the others are\n \
         taken and put back later, as in the hold model. The last two: the tail without the others.\n \
         share: per cent in the tail; tail: how many these are; put, take: turns of one; pool, second and\n \
         heap: as in the hold model; narrow: the pool by one worker's narrow calls, each in one go.\n \
         ratio: how many times as fast as the second program's library, or the heap, the pool is)",
    );
    let mut panels = Vec::new();
    for arrivals in ARRIVALS {
        let name = format!("{arrivals} arrivals");
        println!(
            " {name:<22} share  tail    put   take      pool    second  ratio      heap  ratio{:>17}",
            "narrow  ratio"
        );
        let [all, beside, ..] = SCENES.map(|scene| contests(arguments, arrivals, scene));
        panels.push(panel(arrivals, &all, &beside));
    }
    let picture = Picture {
        title: "What the tail costs",
        unit: "nanoseconds",
        panels,
    };
    picture.write(&arguments.tail_svg)
}

/// A scene at all shares.
fn contests(arguments: &Arguments, arrivals: usize, scene: Scene) -> Vec<Times> {
    let jobs = SHARES.map(|share| Job::new(arrivals, share));
    let jobs = jobs
        .iter()
        .filter(|job| job.tail > 0 || !scene.is_tail_alone);
    let contests = jobs.map(|job| {
        let times = contest(arguments, job, scene);
        times.print(job, scene.name);
        times
    });
    contests.collect()
}

/// Of a put and a take.
struct Times {
    share: usize,
    turns: [f64; 2],
    pool: f64,
    second: f64,
    heap: f64,
    narrow: f64,
}

impl Times {
    fn print(&self, job: &Job, name: &str) {
        let Self {
            share,
            turns: [put, take],
            pool,
            second,
            heap,
            narrow,
        } = *self;
        println!(
            "  {name:<21}{share:>6}{:>6}{put:>7.1}{take:>7.1}{pool:>10.1}{second:>10.1}{:>7.2}\
             {heap:>10.1}{:>7.2}{narrow:>10.1}{:>7.2}",
            job.tail,
            second / pool,
            heap / pool,
            heap / narrow
        );
    }
}

/// Long lists make long calls; fewer of them will do.
fn contest(arguments: &Arguments, job: &Job, scene: Scene) -> Times {
    const TURNS: usize = 15;
    let mut runs = (scene.pieces)(job, 0);
    let turns_of_one: usize = runs.iter().map(|run| run.holding.turns).sum();
    let count = arguments.holds * TURNS / turns_of_one;
    runs.extend((1..count as u64).flat_map(|seed| (scene.pieces)(job, seed)));
    let starts: Vec<Starts> = runs.iter().map(Run::starts).collect();
    let model = &job.others;
    let (mut entry, mut library) = hold::engines(model.shape);

    check_lines("the tail", &runs, &mut entry, &mut library);
    check_times(&runs, heap::by_starts(model, &starts).1);
    check_times(&runs, hold_narrow::by_starts(model, &starts).1);
    let pairs: usize = runs.iter().map(|run| run.taken.len()).sum();
    let [pool, second, heap, narrow] = best(
        arguments.rounds,
        [
            &mut || time_holding(&mut entry, &runs),
            &mut || time_holding(&mut library, &runs),
            &mut || heap::by_starts(model, &starts).0,
            &mut || hold_narrow::by_starts(model, &starts).0,
        ],
    )
    .map(|time| nanoseconds_each(time, pairs));
    Times {
        share: job.share,
        turns: turns(&runs).map(|turns| turns as f64 / pairs as f64),
        pool,
        second,
        heap,
        narrow,
    }
}

/// Turns of the puts and of the takes.
fn turns(runs: &[Run]) -> [usize; 2] {
    let [mut of_puts, mut of_takes] = [0; 2];
    for run in runs {
        let mut is_put = true;
        for record in &run.holding.records {
            match record {
                Record::EnqueueStart { .. } => is_put = true,
                Record::DequeueStart { .. } => is_put = false,
                Record::Step { .. } if is_put => of_puts += 1,
                Record::Step { .. } => of_takes += 1,
                Record::Open(_) => {}
            }
        }
    }
    [of_puts, of_takes]
}

/// Arrivals, a share of them in the tail.
struct Job {
    share: usize,
    /// How many these are.
    tail: usize,
    others: Model,
}

impl Job {
    /// The others lie as close as they do without a tail.
    fn new(arrivals: usize, share: usize) -> Self {
        let whole = hold::model(1, arrivals);
        let spread = whole.spread / 100 * (100 - share as u32);
        let tail = arrivals * share / 100;
        Self {
            share,
            tail,
            others: Model::new(whole.shape, arrivals - tail, spread),
        }
    }

    fn all(&self, seed: u64) -> Vec<Run> {
        self.put_and_take(seed, |random| self.draw_all(random))
    }

    fn tail(&self, seed: u64) -> Vec<Run> {
        self.put_and_take(seed, |random| self.draw_tail(random))
    }

    fn ever_later(&self, seed: u64) -> Vec<Run> {
        self.put_and_take(seed, |random| {
            let mut times = self.draw_tail(random);
            times.sort_unstable();
            times
        })
    }

    /// Arrivals are put and all of them taken, again and again.
    fn put_and_take(&self, seed: u64, draw: impl Fn(&mut Random) -> Vec<u32>) -> Vec<Run> {
        const PAIRS: usize = 1_000;
        let mut random = Random::new(seed);
        let mut writer = Writer::open(self.others.shape);
        // The pool is at its last bucket, as after a job before.
        writer.put(u32::MAX);
        writer.take();
        writer.end_filling();
        let mut pairs = 0;
        while pairs < PAIRS {
            let times = draw(&mut random);
            for &time in &times {
                writer.put(time);
                writer.end_long_piece();
            }
            for _ in &times {
                writer.take();
                writer.end_long_piece();
            }
            pairs += times.len();
        }
        writer.pieces()
    }

    /// The others are held.
    fn beside(&self, seed: u64) -> Vec<Run> {
        let Draws { times, increments } = self.others.draws(seed);
        let tail = self.draw_tail(&mut Random::new(!seed));
        let mut writer = Writer::open(self.others.shape);
        for time in latest_first(tail).into_iter().chain(latest_first(times)) {
            writer.put(time);
        }
        writer.end_filling();
        for increment in increments {
            let time = writer.take();
            writer.put(self.others.later(time, increment));
            writer.end_long_piece();
        }
        writer.pieces()
    }

    fn draw_tail(&self, random: &mut Random) -> Vec<u32> {
        (0..self.tail).map(|_| draw_late(random)).collect()
    }

    /// Those of the tail stand evenly among the others.
    fn draw_all(&self, random: &mut Random) -> Vec<u32> {
        let arrivals = self.others.pending + self.tail;
        let in_tail_before = |place: usize| place * self.tail / arrivals;
        let times = (0..arrivals).map(|place| {
            if in_tail_before(place) < in_tail_before(place + 1) {
                draw_late(random)
            } else {
                random.below(self.others.spread)
            }
        });
        times.collect()
    }
}

/// A time in the tail of any calendar.
fn draw_late(random: &mut Random) -> u32 {
    random.between(u32::MAX / 2, u32::MAX)
}

/// Writes whole calls of one worker, in pieces.
struct Writer {
    recorder: Recorder,
    /// Of the next piece.
    filling: Batch,
    taken: Vec<u32>,
    pieces: Vec<Run>,
}

impl Writer {
    fn open(shape: Shape) -> Self {
        Self {
            recorder: Recorder::open(shape),
            filling: Batch::default(),
            taken: Vec::new(),
            pieces: Vec::new(),
        }
    }

    fn put(&mut self, time: u32) {
        self.recorder.call(put(0, time));
    }

    fn take(&mut self) -> u32 {
        let time = match self.recorder.call(take(0)) {
            Response::Took { time, .. } => time as u32,
            other => panic!("an arrival is there, and {other:?}"),
        };
        self.taken.push(time);
        time
    }

    /// What was written up to here is not timed.
    fn end_filling(&mut self) {
        self.filling = self.recorder.cut();
        self.taken.clear();
    }

    /// A piece takes about a millisecond.
    fn end_long_piece(&mut self) {
        const TURNS: usize = 100_000;
        if self.recorder.turns() >= TURNS {
            self.end_piece();
        }
    }

    fn end_piece(&mut self) {
        self.pieces.push(Run {
            filling: mem::take(&mut self.filling),
            holding: self.recorder.cut(),
            taken: mem::take(&mut self.taken),
        });
    }

    fn pieces(mut self) -> Vec<Run> {
        if self.recorder.turns() > 0 {
            self.end_piece();
        }
        self.pieces
    }
}

fn panel(arrivals: usize, all: &[Times], beside: &[Times]) -> Panel {
    let curve = |name, times: &[Times], of: fn(&Times) -> f64| Curve {
        name,
        // There is no 0 on a logarithmic axis.
        points: times
            .iter()
            .filter(|it| it.share > 0)
            .map(|it| (it.share as f64, of(it)))
            .collect(),
    };
    Panel {
        name: format!("per cent of {arrivals} arrivals in the last bucket"),
        curves: vec![
            curve("put and take, batch entry", all, |it| it.pool),
            curve("put and take, narrow calls", all, |it| it.narrow),
            curve("hold beside the tail, batches", beside, |it| it.pool),
            curve("put and take, heap", all, |it| it.heap),
        ],
    }
}
