//! A run on one screen.

use std::fmt::Write;

use wubraken::{Shape, Taken};

use crate::bars::push_echogram;
use crate::trace::Trace;

/// The taken list, the account of the run, and the echogram.
pub fn report(shape: Shape, trace: &Trace) -> String {
    let mut text = String::from("   time   path order distance    energy\n");
    let mut latest = (0, 0);
    let mut overtaken = 0;
    for arrival in trace.taken() {
        // What the list shows of a key, which has the ticket, too.
        let key = (arrival.time, arrival.order);
        let is_overtaken = key < latest;
        overtaken += usize::from(is_overtaken);
        latest = latest.max(key);
        push_arrival(&mut text, arrival, is_overtaken);
    }
    push_account(&mut text, shape, trace, overtaken);
    push_echogram(&mut text, trace);
    text
}

fn push_arrival(text: &mut String, arrival: Taken, is_overtaken: bool) {
    let Taken {
        time,
        path,
        order,
        distance,
        energy,
    } = arrival;
    let mark = if is_overtaken { " *" } else { "" };
    let _ = writeln!(
        text,
        "{time:>7}{path:>7}{order:>6}{distance:>9}{energy:>10}{mark}"
    );
}

fn push_account(text: &mut String, shape: Shape, trace: &Trace, overtaken: usize) {
    let (puts, takes) = (trace.put().len(), trace.taken().len());
    let _ = writeln!(
        text,
        "turns: {} (workers: {}), for {puts} puts, {takes} takes, and {} takes that found the pool empty",
        trace.turns,
        shape.workers,
        trace.empty_answers()
    );
    let _ = writeln!(
        text,
        "epochs: {} (puts into the current bucket, or before it)",
        trace.epochs
    );
    let _ = writeln!(
        text,
        "nodes: {} lent, {} used, and used again by {} puts",
        shape.nodes,
        trace.nodes.len(),
        trace.reused()
    );
    let _ = writeln!(
        text,
        "refusals: {} too far (5), {} without a free node (12: that worker takes first)",
        trace.too_far, trace.no_node
    );
    let span = shape.buckets * shape.width;
    let is_late = |taken: &&Taken| u64::from(taken.time) >= span;
    let _ = writeln!(
        text,
        "tail: {} came after the span of {span} samples, from the last bucket; no time is too late",
        trace.taken().iter().filter(is_late).count()
    );
    let _ = writeln!(
        text,
        "taken after a later one (*): {overtaken}; it, or what it was reflected from, was in a worker's hand"
    );
}
