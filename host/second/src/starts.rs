//! Starts of enqueues and dequeues.

use crate::layout::field;
use crate::pool::Pool;
use crate::response::{Answer, Refusal, Response};
use crate::shape::Arrival;
use crate::store::Reclamation;
use crate::word::MAX_COUNT;
use crate::worker::{kind, stage, Worker};

impl Pool<'_> {
    /// Starts a put: allocates a node, fills it in and enters the search.
    pub fn enqueue_start(&mut self, worker: usize, arrival: Arrival) -> Answer {
        let record = self.worker(worker)?;
        if !arrival.is_in_range() {
            return Err(Refusal::ArrivalOutOfRange);
        }
        let ticket = self.next_ticket(&record)?;
        let node = self.first_free_node().ok_or(Refusal::NoFreeNode)?;

        self.store.set_started(ticket);
        self.store.set_last_allocated(node);
        self.fill_in(node, arrival, ticket);
        self.workers[worker] = Worker {
            stage: stage::SEARCH_HEAD,
            kind: kind::ENQUEUE,
            own: node,
            bucket: self.shape.bucket_of(arrival.time).into(),
            ticket,
            ..record
        };
        Ok(Response::Begun(ticket))
    }

    /// Starts a take: enters the reading of current.
    pub fn dequeue_start(&mut self, worker: usize) -> Answer {
        let record = self.worker(worker)?;
        let ticket = self.next_ticket(&record)?;

        self.store.set_started(ticket);
        self.workers[worker] = Worker {
            stage: stage::DEQUEUE_CURRENT,
            kind: kind::DEQUEUE,
            ticket,
            ..record
        };
        Ok(Response::Begun(ticket))
    }

    /// The ticket a start on this record would get (refusals 9 and 11).
    fn next_ticket(&self, record: &Worker) -> Result<u64, Refusal> {
        if record.is_busy() {
            return Err(Refusal::WorkerBusy);
        }
        match self.store.started() {
            MAX_COUNT => Err(Refusal::CountExhausted),
            started => Ok(started + 1),
        }
    }

    /// The first free node after the last one handed out, going round; that one
    /// itself comes last.
    fn first_free_node(&self) -> Option<u64> {
        let oldest = self.oldest_ticket();
        let last = self.store.last_allocated();
        (last + 1..self.store.end())
            .chain(0..=last)
            .find(|&node| self.store.reclamation(node).is_free(oldest))
    }

    /// The lowest ticket of the calls in progress.
    fn oldest_ticket(&self) -> Option<u64> {
        self.workers
            .iter()
            .filter(|record| record.is_busy())
            .map(|record| record.ticket)
            .min()
    }

    /// Link and epoch are left for the enqueue's own steps.
    fn fill_in(&mut self, node: u64, arrival: Arrival, ticket: u64) {
        let store = &mut self.store;
        store.set_node(node, field::TIME, arrival.time.into());
        store.set_node(node, field::TICKET, ticket);
        store.set_node(node, field::PATH, arrival.path.into());
        store.set_node(node, field::ORDER, arrival.order.into());
        store.set_node(node, field::DISTANCE, arrival.distance.into());
        store.set_reclamation(node, Reclamation::Live);
    }
}
