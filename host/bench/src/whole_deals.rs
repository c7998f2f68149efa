//! A pool whose turns are dealt in runs that look at all lent memory; its calls begin by
//! narrow starts.
#![allow(unsafe_code)]

use wubraken::raw::{kind, wubraken_deal_run};
use wubraken::{Arrival, Dealer, Pool, Shape, Worker};

use crate::dealt_turns::Host;

pub struct WholeDeals {
    shape: Shape,
    store: Vec<u64>,
    table: Vec<Worker>,
    served: u64,
}

impl WholeDeals {
    pub fn of(pool: Pool) -> Self {
        let shape = pool.shape();
        let (store, table) = pool.into_parts();
        Self {
            shape,
            store,
            table,
            served: Dealer::new(shape).served(),
        }
    }

    pub fn pool(&mut self) -> Pool<&mut [u64], &mut [Worker]> {
        Pool::resume(self.shape, &mut self.store, &mut self.table)
    }

    /// As a new dealer is.
    pub fn renew(&mut self) {
        self.served = Dealer::new(self.shape).served();
    }
}

impl Host for WholeDeals {
    fn begin_take(&mut self, worker: u64) {
        self.pool().dequeue(worker).expect("the worker is idle");
    }

    fn begin_put(&mut self, worker: u64, arrival: Arrival) {
        let put = self.pool().enqueue(worker, arrival);
        put.expect("a node is free");
    }

    fn run(&mut self) -> (u64, Option<Arrival>) {
        let (store, table) = (self.store.as_mut_ptr(), self.table.as_mut_ptr());
        let (words, records) = (self.store.len(), self.table.len());
        let (shape, served) = (self.shape, self.served);
        // SAFETY: pointers and lengths of two vectors.
        let dealt =
            unsafe { wubraken_deal_run(shape, served, u64::MAX, store, words, table, records) };
        let answer = dealt.answer;
        assert_ne!(answer.kind, kind::REFUSED, "refused by {}", answer.number);
        self.served = dealt.dealer;
        let taken = Arrival {
            time: answer.time as u32,
            path: answer.path as u32,
            order: answer.order as u32,
            distance: answer.distance as u32,
        };
        (self.served, (answer.kind == kind::TOOK).then_some(taken))
    }
}
