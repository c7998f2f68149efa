//! The calls of a run, as they look from outside: from the records that went in
//! and the lines that came out.

use std::fmt;

use order::{Answer, Call, History, Kind};
use second::{Arrival, Record, Records, Refusal, Shape};

use crate::line::{Line, Taken};
use crate::record::show;

/// The calls from one opening to the next; their moments are places of records in
/// the run, from 0.
#[derive(Clone, Debug)]
pub struct Opened {
    /// The place of the opening.
    pub opening: usize,
    pub shape: Shape,
    pub history: History<Taken>,
    /// For each call the place of its first turn, if it has had one.
    pub first_turns: Vec<Option<usize>>,
}

/// A line that cannot be, whatever the order of the calls.
#[derive(Clone, Debug, PartialEq, Eq)]
pub struct Fault {
    /// Place of the record.
    pub at: usize,
    pub record: String,
    pub line: String,
    pub why: &'static str,
}

impl fmt::Display for Fault {
    fn fmt(&self, f: &mut fmt::Formatter<'_>) -> fmt::Result {
        let Self {
            at,
            record,
            line,
            why,
        } = self;
        write!(f, "record {}, {record}, prints \"{line}\": {why}", at + 1)
    }
}

/// Records and lines, side by side.
pub struct Run<'a> {
    records: Vec<Result<Record, Refusal>>,
    lines: Vec<&'a str>,
}

impl<'a> Run<'a> {
    pub fn read(input: &[u8], output: &'a str) -> Self {
        Self {
            records: Records::new(input).collect(),
            lines: output.split_terminator('\n').collect(),
        }
    }

    pub fn record(&self, place: usize) -> String {
        match self.records.get(place) {
            Some(record) => show(record),
            None => "(no record)".to_string(),
        }
    }

    pub fn line(&self, place: usize) -> &'a str {
        self.lines.get(place).copied().unwrap_or("(no line)")
    }

    pub fn fault(&self, at: usize, why: &'static str) -> Fault {
        let (record, line) = (self.record(at), self.line(at).to_string());
        Fault {
            at,
            record,
            line,
            why,
        }
    }

    /// A call as a line of text.
    pub fn call(&self, call: &Call<Taken>) -> String {
        let Call { ticket, worker, .. } = call;
        let kind = match call.kind {
            Kind::Put { time, order, .. } => format!("put at {time}, order {order}"),
            Kind::Take => "take".to_string(),
        };
        let (end, answer) = match call.end {
            Some(end) => ((end.at + 1).to_string(), self.line(end.at)),
            None => ("...".to_string(), "unfinished"),
        };
        let records = format!("{} to {end}", call.start + 1);
        format!("  {ticket:<5}worker {worker:<4}{kind:<28}records {records:<13} {answer}\n")
    }

    /// The calls of every history.
    pub fn histories(&self) -> Result<Vec<Opened>, Fault> {
        let mut histories = Histories::default();
        for place in 0..self.records.len().max(self.lines.len()) {
            self.follow(&mut histories, place)
                .map_err(|why| self.fault(place, why))?;
        }
        Ok(histories.0)
    }

    fn follow(&self, histories: &mut Histories, place: usize) -> Result<(), &'static str> {
        let record = self.records.get(place).ok_or("a line too many")?;
        let text = self.lines.get(place).ok_or("a line is missing")?;
        let line = Line::parse(text).ok_or("no such line")?;
        match (*record, line) {
            (_, Line::No(_)) => Ok(()),
            (Ok(Record::Open(shape)), Line::Open) => {
                histories.open(place, shape);
                Ok(())
            }
            (Ok(Record::EnqueueStart { worker, arrival }), Line::Begun(ticket)) => {
                let Arrival { time, order, .. } = arrival;
                let shown = Taken::of(arrival);
                let kind = Kind::Put { time, order, shown };
                histories.begin(worker.into(), ticket, kind, place)
            }
            (Ok(Record::DequeueStart { worker }), Line::Begun(ticket)) => {
                histories.begin(worker.into(), ticket, Kind::Take, place)
            }
            (Ok(Record::Step { worker }), Line::On) => {
                histories.turn(worker.into(), place).map(drop)
            }
            (Ok(Record::Step { worker }), Line::Ended(answer)) => {
                histories.end(worker.into(), place, answer)
            }
            _ => Err("this line is not for this record"),
        }
    }
}

/// The histories so far.
#[derive(Default)]
struct Histories(Vec<Opened>);

impl Histories {
    fn open(&mut self, opening: usize, shape: Shape) {
        self.0.push(Opened {
            opening,
            shape,
            history: History::default(),
            first_turns: Vec::new(),
        });
    }

    fn begin(
        &mut self,
        worker: usize,
        ticket: u64,
        kind: Kind<Taken>,
        start: usize,
    ) -> Result<(), &'static str> {
        let opened = self.0.last_mut().ok_or("nothing is open")?;
        let history = &mut opened.history;
        if ticket != history.calls().len() as u64 + 1 {
            return Err("not the next ticket");
        }
        if history.is_busy(worker) {
            return Err("the worker has a call in progress");
        }
        history.begin(worker, ticket, kind, start);
        opened.first_turns.push(None);
        Ok(())
    }

    /// A turn of a worker with a call in progress, in the last history.
    fn turn(&mut self, worker: usize, at: usize) -> Result<&mut History<Taken>, &'static str> {
        let idle = "the worker has no call in progress";
        let opened = self.0.last_mut().ok_or(idle)?;
        let calls = opened.history.calls();
        let latest = calls.iter().rposition(|call| call.worker == worker);
        let latest = latest.filter(|&latest| calls[latest].end.is_none());
        opened.first_turns[latest.ok_or(idle)?].get_or_insert(at);
        Ok(&mut opened.history)
    }

    fn end(&mut self, worker: usize, at: usize, answer: Answer<Taken>) -> Result<(), &'static str> {
        self.turn(worker, at)?.end(worker, at, answer);
        Ok(())
    }
}
