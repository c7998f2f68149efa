//! The contest in the hold model.

use std::thread;
use std::time::Duration;

use second::{Program, Shape};

use crate::arguments::Arguments;
use crate::engines::{assert_same_lines, BatchEntry, Engine};
use crate::heap;
use crate::hold_model::{fold, Draws, Model, Run};
use crate::hold_narrow::{by_calls, by_turns};
use crate::report::{heading, Target};
use crate::tbb;
use crate::timing::{best, nanoseconds_each, time};

pub const PENDING: [usize; 3] = [64, 512, 4_000];
const WORKERS: [u32; 2] = [1, 4];

pub fn run(arguments: &Arguments) {
    heading(
        "The hold model: nanoseconds to take the earliest arrival and put it back later",
        "(the pool, by its batch entry, and the second program's library do a call in turns of one\n \
         shared word each, reading a record and writing a line for each turn; BinaryHeap and oneTBB\n \
         do a call in one go. The workers' turns are dealt by one thread; oneTBB has a thread a\n \
         worker, as far as there are cores. ratio: how many times as fast as that one the pool is)",
    );
    println!(
        " pending workers  turns      pool    second  ratio      heap  ratio    oneTBB  ratio"
    );
    let mut has_tbb = true;
    let mut narrow = Vec::new();
    for workers in WORKERS {
        for pending in PENDING {
            let model = model(workers, pending);
            let times = contest(arguments, &model);
            has_tbb &= times.tbb.is_some();
            narrow.push((model, times));
        }
    }
    if !has_tbb {
        let path = arguments.tbb.display();
        println!(" oneTBB skipped: {path} cannot be run (it needs g++ and Debian's libtbb-dev)");
    }
    println!(
        " The same by narrow calls, through the Rust wrapper: a step a turn, or a put and a take in\n \
         one go; ratios: how many times as fast as the heap, and as oneTBB"
    );
    println!(
        " pending workers      heap    oneTBB  by turns   heap oneTBB  by calls   heap oneTBB"
    );
    for (model, times) in narrow {
        times.print_narrow(&model);
    }
}

/// Nanoseconds of a hold, by each contestant.
struct Times {
    pool: f64,
    second: f64,
    heap: f64,
    tbb: Option<f64>,
    turns: f64,
    /// With one worker.
    calls: Option<f64>,
}

impl Times {
    fn print(&self, model: &Model, turns: f64) {
        let (pending, workers, pool) = (model.pending, model.shape.workers, self.pool);
        print!("{pending:>8}{workers:>8}{turns:>7.1}{pool:>10.1}");
        for other in [Some(self.second), Some(self.heap), self.tbb] {
            match other {
                Some(time) => print!("{time:>10.1}{:>7.2}", time / pool),
                None => print!("   skipped"),
            }
        }
        println!();
    }

    /// The target is for few arrivals; with many, a put walks along lists.
    fn print_narrow(&self, model: &Model) {
        let (pending, workers, heap) = (model.pending, model.shape.workers, self.heap);
        let tbb = |time: f64| self.tbb.map(|tbb| tbb / time);
        print!(
            "{pending:>8}{workers:>8}{heap:>10.1}{}",
            cell(10, 1, self.tbb)
        );
        for time in [Some(self.turns), self.calls].into_iter().flatten() {
            let ratios = [Some(heap / time), tbb(time)].map(|ratio| cell(7, 2, ratio));
            print!("{time:>10.1}{}", ratios.concat());
        }
        if let (Some(calls), true) = (self.calls, pending <= 512) {
            print!("  (heap: {})", Target::AtLeast(0.35).beside(heap / calls));
        }
        println!();
    }
}

/// A number so wide, or a dash.
fn cell(width: usize, decimals: usize, number: Option<f64>) -> String {
    match number {
        Some(number) => format!("{number:>width$.decimals$}"),
        None => format!("{:>width$}", "-"),
    }
}

pub fn model(workers: u32, pending: usize) -> Model {
    Model::with_spare(workers, pending, 64)
}

fn contest(arguments: &Arguments, model: &Model) -> Times {
    let count = (arguments.holds / model.holds).max(1);
    let runs: Vec<Run> = (0..count as u64).map(|run| model.run(run)).collect();
    let draws: Vec<Draws> = (0..count as u64).map(|run| model.draws(run)).collect();
    let (mut entry, mut library) = engines(model.shape);
    let cores = thread::available_parallelism().map_or(1, usize::from);
    let threads = cores.min(model.shape.workers as usize);
    let tbb = || tbb::hold(&arguments.tbb, model, count, threads);
    let is_alone = model.shape.workers == 1;

    check_lines("the hold model", &runs, &mut entry, &mut library);
    check_times(&runs, by_turns(model, &runs).1);
    if is_alone {
        check_times(&runs, heap::hold(model, &draws).1);
        check_times(&runs, by_calls(model, &draws).1);
        if let Some((_, fold)) = tbb() {
            check_times(&runs, fold);
        }
    }
    let holds = count * model.holds;
    let [pool, second, heap, tbb, turns, calls] = best(
        arguments.rounds,
        [
            &mut || time_holding(&mut entry, &runs),
            &mut || time_holding(&mut library, &runs),
            &mut || heap::hold(model, &draws).0,
            &mut || tbb().map_or(Vec::new(), |held| held.0),
            &mut || by_turns(model, &runs).0,
            &mut || match is_alone {
                true => by_calls(model, &draws).0,
                false => Vec::new(),
            },
        ],
    )
    .map(|time| nanoseconds_each(time, holds));
    let measured = |time: f64| Some(time).filter(|&time| time > 0.0);
    let times = Times {
        pool,
        second,
        heap,
        tbb: measured(tbb),
        turns,
        calls: measured(calls),
    };
    let turns: usize = runs.iter().map(|run| run.holding.turns).sum();
    times.print(model, turns as f64 / holds as f64);
    times
}

/// The two that read turn files.
pub fn engines(shape: Shape) -> (BatchEntry, Program) {
    let (words, records) = (shape.store_words(), shape.workers as usize);
    (
        BatchEntry::lending(words, records),
        Program::lending(words, records),
    )
}

/// Both print the same.
pub fn check_lines(name: &str, runs: &[Run], entry: &mut BatchEntry, library: &mut Program) {
    for run in runs {
        for batch in [&run.filling, &run.holding] {
            let (ours, others) = (entry.lines(&batch.bytes), library.lines(&batch.bytes));
            assert_same_lines(name, &ours, &others);
        }
    }
}

/// The same times in the same order as in the batches. Heaps take them as one
/// worker does.
pub fn check_times(runs: &[Run], others: u64) {
    let times = runs.iter().flat_map(|run| &run.taken);
    let ours = times.fold(0, |sum, &time| fold(sum, time));
    assert_eq!(ours, others, "another order of times");
}

/// How long the holds of each run take, without the filling.
pub fn time_holding(engine: &mut impl Engine, runs: &[Run]) -> Vec<Duration> {
    let mut times = Vec::new();
    for run in runs {
        engine.run(&run.filling.bytes);
        times.push(time(|| engine.run(&run.holding.bytes)));
    }
    times
}
