//! Workers of a pool, and a dealer that serves them.

use schedule::lent::Memory;
use schedule::Random;
use wubraken::raw::{self, kind};
use wubraken::{Dealer, Shape};

use super::both::Both;
use super::draw::any_arrival;
use super::lent::{Call, Deal};
use super::translate;

/// The pool, made twice, and the worker that the dealer has served last.
#[derive(Clone)]
pub struct Table {
    pub lent: Both,
    pub shape: Shape,
    pub served: u64,
}

impl Table {
    pub fn open(shape: Shape) -> Self {
        let (words, records) = (shape.words().unwrap(), shape.workers as usize);
        let mut lent = Both::garbage(words + 2, records + 1);
        lent.call(shape, Call::Open);
        let served = Dealer::new(shape).served();
        Self {
            lent,
            shape,
            served,
        }
    }

    /// Memory as it is, with something spare behind it.
    pub fn of(memory: &Memory, served: u64) -> Self {
        Self {
            lent: Both::with_spare(memory, 1, 2),
            shape: translate::shape_back(memory.shape),
            served,
        }
    }

    pub fn deal(&mut self, deal: Deal) -> raw::Dealt {
        let dealt = self.lent.deal(self.shape, self.served, deal);
        self.served = dealt.dealer;
        dealt
    }

    /// At most so many turns, each by a call of its own.
    pub fn one_by_one(&mut self, one: Deal, most: u64) -> raw::Dealt {
        let on = raw::Answer {
            kind: kind::ON,
            ..raw::Answer::default()
        };
        let (mut turns, mut answer) = (0, on);
        while turns < most && answer == on {
            let dealt = self.deal(one);
            answer = dealt.answer;
            if dealt.turns == 0 {
                break;
            }
            turns += 1;
        }
        raw::Dealt {
            dealer: self.served,
            turns,
            answer,
        }
    }

    pub fn is_busy(&self, worker: u64) -> bool {
        self.lent.record(worker as usize).unwrap().stage > 0
    }

    /// Some idle workers begin a call.
    pub fn begin_some(&mut self, random: &mut Random, one_in: u32) {
        for worker in 0..self.shape.workers {
            if !self.is_busy(worker) && random.one_in(one_in) {
                let put = Call::Enqueue(worker, any_arrival(random, self.shape));
                let call = random.choose(&[put, Call::Dequeue(worker)]);
                self.lent.call(self.shape, call.narrow(0));
            }
        }
    }

    pub fn assert_same(&self, other: &Self) {
        self.lent.assert_same_memory(&other.lent);
        assert_eq!(self.served, other.served);
    }
}
