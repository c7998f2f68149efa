//! The types of the library as those of the second program, and back.

use second::{Answer, Response};
use wubraken::raw::{self, kind};
use wubraken::{Arrival, Refusal, Shape, Worker};

/// Fields of 2^32 or more are outside their limits, as is 2^32 − 1.
pub fn shape(shape: Shape) -> second::Shape {
    let field = |value: u64| value.try_into().unwrap_or(u32::MAX);
    second::Shape {
        workers: field(shape.workers),
        nodes: field(shape.nodes),
        buckets: field(shape.buckets),
        width: field(shape.width),
    }
}

pub fn shape_back(shape: second::Shape) -> Shape {
    Shape {
        workers: shape.workers.into(),
        nodes: shape.nodes.into(),
        buckets: shape.buckets.into(),
        width: shape.width.into(),
    }
}

pub fn arrival(arrival: Arrival) -> second::Arrival {
    second::Arrival {
        time: arrival.time,
        path: arrival.path,
        order: arrival.order,
        distance: arrival.distance,
    }
}

pub fn arrival_back(arrival: second::Arrival) -> Arrival {
    Arrival {
        time: arrival.time,
        path: arrival.path,
        order: arrival.order,
        distance: arrival.distance,
    }
}

fn worker(worker: Worker) -> second::Worker {
    second::Worker {
        stage: worker.stage,
        kind: worker.kind,
        own: worker.own,
        bucket: worker.bucket,
        left: worker.left,
        right: worker.right,
        link_seen: worker.seen,
        current_seen: worker.current,
        ticket: worker.ticket,
    }
}

pub fn table(table: &[Worker]) -> Vec<second::Worker> {
    table.iter().copied().map(worker).collect()
}

fn worker_back(worker: second::Worker) -> Worker {
    Worker {
        stage: worker.stage,
        kind: worker.kind,
        own: worker.own,
        bucket: worker.bucket,
        left: worker.left,
        right: worker.right,
        seen: worker.link_seen,
        current: worker.current_seen,
        ticket: worker.ticket,
    }
}

pub fn table_back(workers: &[second::Worker]) -> Vec<Worker> {
    workers.iter().copied().map(worker_back).collect()
}

pub fn refusal(refusal: second::Refusal) -> Refusal {
    Refusal::from_number(refusal.number().into()).expect("both have the same numbers")
}

/// The answer, with 0 in every field that it does not carry.
pub fn answer(answer: Answer) -> raw::Answer {
    let of = |kind| raw::Answer {
        kind,
        ..raw::Answer::default()
    };
    match answer {
        Ok(Response::Open) => of(kind::OPEN),
        Ok(Response::Begun(ticket)) => raw::Answer {
            ticket,
            ..of(kind::BEGUN)
        },
        Ok(Response::On) => of(kind::ON),
        Ok(Response::Stored(ticket)) => raw::Answer {
            ticket,
            ..of(kind::STORED)
        },
        Ok(Response::Took {
            time,
            path,
            order,
            distance,
            energy,
        }) => raw::Answer {
            time,
            path,
            order,
            distance,
            energy: energy.into(),
            ..of(kind::TOOK)
        },
        Ok(Response::Empty) => of(kind::EMPTY),
        Err(refusal) => raw::Answer {
            number: refusal.number().into(),
            ..of(kind::REFUSED)
        },
    }
}

pub fn dealt(dealt: second::Dealt) -> raw::Dealt {
    raw::Dealt {
        dealer: dealt.served as u64,
        turns: dealt.turns,
        answer: answer(dealt.answer),
    }
}
