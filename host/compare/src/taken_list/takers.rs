//! Which take got the arrival of each put, as far as it matters.
//!
//! Alike arrivals: the lines leave open which of their puts an answer came from,
//! and any way in which the promises hold is good enough. A put is *due* at the
//! moment at which it must be marked; its take must have had a turn by then. The
//! takes get their puts in the order of their ends: each, of the puts that had a
//! turn before it ended and are not overdue, the one due first. If any way is in
//! time, this one is: let it give a take put p, and another way put q, due later;
//! whoever else has p there ended later, and can have q instead. What is left over
//! is then due as late as it can be.
//!
//! Takes in progress at the end: they answer nothing, but each may hold one
//! arrival. Those left over that are due get one each, while there are any that had
//! a turn in time.

use std::collections::BTreeSet;

use crate::taken_list::alike::{Alike, Group};
use crate::taken_list::calls::{Calls, Take, NEVER};

/// The take of each put, if there is any.
pub struct Takers(Vec<Option<usize>>);

impl Takers {
    /// By the moment at which each put is due, [`NEVER`] for most.
    pub fn of(calls: &Calls, alike: &Alike, due: &[usize]) -> Self {
        let mut takers = Self(vec![None; calls.puts.len()]);
        for group in &alike.groups {
            takers.hand_out(calls, group, due);
        }
        takers.let_hold(calls, due);
        takers
    }

    pub fn of_put(&self, put: usize) -> Option<usize> {
        self.0[put]
    }

    /// Puts with the takes that answered them.
    pub fn answered<'a>(&'a self, calls: &'a Calls) -> impl Iterator<Item = (usize, usize)> + 'a {
        let each = self.0.iter().enumerate();
        each.filter_map(|(put, &take)| Some((put, take?)))
            .filter(move |&(_, take)| calls.takes[take].answer.is_some())
    }

    /// The answers of a group to its puts.
    fn hand_out(&mut self, calls: &Calls, group: &Group, due: &[usize]) {
        let mut puts = group.puts.iter().copied().peekable();
        let mut left = BTreeSet::new();
        for &take in &group.takes {
            let Take {
                first_turn, end, ..
            } = calls.takes[take];
            while let Some(put) = puts.next_if(|&put| calls.puts[put].first_turn < end) {
                left.insert((due[put], put));
            }
            let in_time = left.range((first_turn, usize::MAX)..).next();
            // All are overdue: any of them, and a promise is broken.
            let given = in_time.or_else(|| left.iter().next_back()).copied();
            if let Some((due, put)) = given {
                left.remove(&(due, put));
                self.0[put] = Some(take);
            }
        }
    }

    /// The arrivals that are due and not answered to takes in progress at the end.
    fn let_hold(&mut self, calls: &Calls, due: &[usize]) {
        let puts = 0..calls.puts.len();
        let mut puts: Vec<usize> = puts
            .filter(|&put| due[put] != NEVER && self.0[put].is_none())
            .collect();
        puts.sort_unstable_by_key(|&put| due[put]);
        let takes = calls.takes.iter().enumerate();
        let mut takes: Vec<(usize, usize)> = takes
            .filter(|(_, take)| take.end == NEVER)
            .map(|(number, take)| (take.first_turn, number))
            .collect();
        takes.sort_unstable();
        let mut takes = takes.into_iter().peekable();
        for put in puts {
            let taker = takes.next_if(|&(first_turn, _)| first_turn < due[put]);
            self.0[put] = taker.map(|(_, take)| take);
        }
    }
}
