//! Records as text.

use second::{Record, Refusal};

/// A record, or why it cannot be read, in one short line.
pub fn show(record: &Result<Record, Refusal>) -> String {
    match *record {
        Ok(Record::Open(shape)) => format!(
            "OP {} {} {} {}",
            shape.workers, shape.nodes, shape.buckets, shape.width
        ),
        Ok(Record::EnqueueStart { worker, arrival }) => format!(
            "PU {worker} {} {} {} {}",
            arrival.time, arrival.path, arrival.order, arrival.distance
        ),
        Ok(Record::DequeueStart { worker }) => format!("TA {worker}"),
        Ok(Record::Step { worker }) => format!("TU {worker}"),
        Err(Refusal::UnknownMark) => "(an unknown mark)".to_string(),
        Err(_) => "(a cut record)".to_string(),
    }
}
