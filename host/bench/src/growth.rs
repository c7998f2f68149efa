//! How the cost grows with each number of a shape, and with the arrivals in a
//! bucket.

use std::io;

use schedule::script::shape;
use second::Shape;

use crate::arguments::Arguments;
use crate::hold;
use crate::hold_model::{Draws, Model, Run};
use crate::hold_narrow::by_calls;
use crate::report::heading;
use crate::shapes::of_wrapper;
use crate::single_calls;
use crate::svg::{Curve, Panel, Picture};
use crate::timing::{best, nanoseconds_each};

/// One number is changed, the others stay.
struct Series {
    name: &'static str,
    others: &'static str,
    points: Vec<(u32, Model)>,
}

/// What was measured at one value.
struct Measured {
    value: u32,
    turns: f64,
    pair: f64,
    narrow: f64,
    call: f64,
}

pub fn run(arguments: &Arguments) -> io::Result<()> {
    heading(
        "Growth: nanoseconds in the hold model",
        "(pair: one take and one put back, by the batch entry; turns: of a pair; narrow: a pair by one\n \
         worker's narrow calls, each in one go; call: one single call that looks at all lent memory)",
    );
    let mut panels = Vec::new();
    for series in all_series() {
        let Series { name, others, .. } = series;
        println!(" {name} ({others})");
        println!(
            "{:>10}{:>8}{:>10}{:>10}{:>10}{:>10}",
            "", "turns", "pair", "a turn", "narrow", "call"
        );
        let points = series.points.iter();
        let measured: Vec<Measured> = points.map(|point| measure(arguments, point)).collect();
        for it in &measured {
            println!(
                "{:>10}{:>8.1}{:>10.1}{:>10.1}{:>10.1}{:>10.1}",
                it.value,
                it.turns,
                it.pair,
                it.pair / it.turns,
                it.narrow,
                it.call
            );
        }
        panels.push(panel(format!("{name} ({others})"), &measured));
    }
    let picture = Picture {
        title: "How the cost grows",
        unit: "nanoseconds",
        panels,
    };
    picture.write(&arguments.svg)
}

/// All calendars are as long; increments go over a quarter of them.
const SPAN: u32 = 65_536;

fn model(workers: u32, nodes: u32, buckets: u32, pending: usize) -> Model {
    let width = (SPAN / buckets).min(Shape::MAX_WIDTH);
    Model::new(shape(workers, nodes, buckets, width), pending, SPAN / 4)
}

fn all_series() -> [Series; 4] {
    let nodes = [16, 64, 256, 1_024, 4_096];
    let buckets = [1, 4, 16, 64, 256];
    let workers = [1, 2, 4, 8, 16, 32, 64];
    let arrivals = [1, 4, 16, 64, 256, 1_024, 4_000];
    [
        Series {
            name: "nodes",
            others: "1 worker, 64 buckets, 12 arrivals",
            points: nodes.map(|it| (it, model(1, it, 64, 12))).to_vec(),
        },
        Series {
            name: "buckets",
            others: "1 worker, 128 nodes, 64 arrivals",
            points: buckets.map(|it| (it, model(1, 128, it, 64))).to_vec(),
        },
        Series {
            name: "workers",
            others: "1,024 nodes, 64 buckets, 256 arrivals",
            points: workers.map(|it| (it, model(it, 1_024, 64, 256))).to_vec(),
        },
        Series {
            name: "arrivals in one bucket",
            others: "1 worker, one node to spare",
            points: arrivals
                .map(|it| (it, model(1, it + 1, 1, it as usize)))
                .to_vec(),
        },
    ]
}

/// Long lists make long calls; fewer of them will do.
fn measure(arguments: &Arguments, &(value, model): &(u32, Model)) -> Measured {
    let in_a_list = (model.pending as u32 / model.shape.buckets).max(10) as usize;
    let holds = (arguments.holds * 10 / in_a_list).max(200);
    let model = model.at_most(holds);
    let count = (holds / model.holds).max(1);
    let runs: Vec<Run> = (0..count as u64).map(|run| model.run(run)).collect();
    let (mut entry, mut library) = hold::engines(model.shape);
    hold::check_lines("the hold model", &runs, &mut entry, &mut library);
    let draws: Vec<Draws> = (0..count as u64).map(|run| model.draws(run)).collect();
    let pairs = count * model.holds;
    let [pair, narrow] = best(
        arguments.rounds,
        [&mut || hold::time_holding(&mut entry, &runs), &mut || {
            by_calls(&model, &draws).0
        }],
    )
    .map(|time| nanoseconds_each(time, pairs));
    let turns: usize = runs.iter().map(|run| run.holding.turns).sum();
    Measured {
        value,
        turns: turns as f64 / pairs as f64,
        pair,
        narrow,
        call: single_calls::nanoseconds(of_wrapper(model.shape), arguments.rounds),
    }
}

fn panel(name: String, measured: &[Measured]) -> Panel {
    let curve = |name, of: fn(&Measured) -> f64| Curve {
        name,
        points: measured
            .iter()
            .map(|it| (f64::from(it.value), of(it)))
            .collect(),
    };
    Panel {
        name,
        curves: vec![
            curve("take and put, batch entry", |it| it.pair),
            curve("take and put, narrow calls", |it| it.narrow),
            curve("one single call", |it| it.call),
        ],
    }
}
