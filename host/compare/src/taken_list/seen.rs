//! What the promises are about, read off the lines of a history.

use crate::taken_list::alike::Alike;
use crate::taken_list::calls::{Calls, Key, NEVER};
use crate::taken_list::first_end::FirstEnd;
use crate::taken_list::takers::Takers;

/// Puts and takes are numbers in `calls`.
pub struct Seen {
    /// The nodes of the pool.
    pub nodes: usize,
    pub calls: Calls,
    pub alike: Alike,
    /// For each put, of the takes that started after its end and answered an
    /// arrival of a higher key, the one that ended first.
    pub later: Vec<Option<usize>>,
    /// The same of the takes that started after its end and answered `empty`.
    pub empty: Vec<Option<usize>>,
    pub takers: Takers,
}

impl Seen {
    pub fn new(nodes: usize, calls: Calls) -> Self {
        let alike = Alike::of(&calls);
        let later = later(&calls, alike.lowest_keys(&calls).collect());
        let empty = empty(&calls);
        let end = |take: Option<usize>| take.map_or(NEVER, |take| calls.takes[take].end);
        let both = later.iter().zip(&empty);
        let due: Vec<usize> = both
            .map(|(&one, &other)| end(one).min(end(other)))
            .collect();
        let takers = Takers::of(&calls, &alike, &due);
        Self {
            nodes,
            calls,
            alike,
            later,
            empty,
            takers,
        }
    }

    /// Whether the arrival of a put can be marked at a moment: the take that answers
    /// it, or that may hold it to the end, has had a turn.
    pub fn is_marked(&self, put: usize, moment: usize) -> bool {
        let taker = self.takers.of_put(put);
        taker.map_or(false, |take| self.calls.takes[take].first_turn < moment)
    }
}

/// Of alike arrivals an answer counts as the lowest, so that its key is surely
/// higher than that of the put.
fn later(calls: &Calls, mut answers: Vec<(Key, usize)>) -> Vec<Option<usize>> {
    answers.sort_unstable();
    let mut puts: Vec<usize> = (0..calls.puts.len()).collect();
    puts.sort_unstable_by_key(|&put| calls.puts[put].key());
    let mut higher = FirstEnd::none(&calls.takes);
    let mut later = vec![None; calls.puts.len()];
    for put in puts.into_iter().rev() {
        let lowest = calls.puts[put].key();
        while let Some(&(key, take)) = answers.last() {
            if key <= lowest {
                break;
            }
            higher.add(take);
            answers.pop();
        }
        later[put] = higher.after(calls.puts[put].end);
    }
    later
}

fn empty(calls: &Calls) -> Vec<Option<usize>> {
    let empty = FirstEnd::of(&calls.takes, |take| take.is_empty());
    let puts = calls.puts.iter();
    puts.map(|put| empty.after(put.end)).collect()
}
