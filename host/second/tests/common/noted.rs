//! A pool whose calls are written down, to search for their order in a plain queue.

use order::{History, Kind};
use schedule::script::{put, take, turn};
use schedule::{to_the_end, Script};
use second::layout::field;
use second::{Answer, Arrival, Record, Response};

use super::{opening, printed, steps, Lent, ON};

/// A pool that writes down its calls; of an arrival a take shows its ticket.
pub struct Noted {
    pub lent: Lent,
    now: usize,
    history: History<u64>,
}

impl Noted {
    /// Opened and led by a script, which must print its lines.
    pub fn play(script: &Script) -> Self {
        let mut noted = Self {
            lent: Lent::open(opening(script)),
            now: 0,
            history: History::default(),
        };
        for (record, line) in steps(script) {
            assert_eq!(printed(noted.apply(record)), line);
        }
        noted
    }

    pub fn apply(&mut self, record: Record) -> Answer {
        self.now += 1;
        let answer = self.lent.apply(record);
        match (record, answer) {
            (Record::EnqueueStart { worker, arrival }, Ok(Response::Begun(ticket))) => {
                let Arrival { time, order, .. } = arrival;
                let shown = ticket;
                let kind = Kind::Put { time, order, shown };
                self.history.begin(worker.into(), ticket, kind, self.now);
            }
            (Record::DequeueStart { worker }, Ok(Response::Begun(ticket))) => {
                let kind = Kind::Take;
                self.history.begin(worker.into(), ticket, kind, self.now);
            }
            (Record::Step { worker }, Ok(response)) => self.note(worker.into(), response),
            _ => {}
        }
        answer
    }

    /// Writes down the end of a worker's call.
    pub fn note(&mut self, worker: usize, response: Response) {
        let answer = match response {
            Response::Stored(ticket) => order::Answer::Stored(ticket),
            Response::Took { .. } => order::Answer::Took(self.ticket_in_own_node(worker)),
            Response::Empty => order::Answer::Empty,
            _ => return,
        };
        self.history.end(worker, self.now, answer);
    }

    fn ticket_in_own_node(&mut self, worker: usize) -> u64 {
        let node = self.lent.workers[worker].own as usize;
        *self.lent.node_word(node, field::TICKET)
    }

    /// Turns to the end of a call.
    pub fn finish(&mut self, worker: u8) -> Answer {
        to_the_end(1_000, ON, || self.apply(turn(worker))).1
    }

    pub fn take_whole(&mut self, worker: u8) -> Answer {
        self.apply(take(worker)).unwrap();
        self.finish(worker)
    }

    pub fn store_whole(&mut self, worker: u8, time: u32) {
        self.apply(put(worker, time)).unwrap();
        assert!(matches!(self.finish(worker), Ok(Response::Stored(_))));
    }

    pub fn is_a_queue(&self) -> bool {
        self.history.has_order()
    }
}
