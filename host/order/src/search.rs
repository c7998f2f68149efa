//! A search through the orders of some calls, for one in which a plain queue
//! gives their answers.
//!
//! Depth first, after Wing and Gong: the next call of an order is any call that
//! started before every call still to come had ended. No state is entered twice;
//! a state is the set of calls in the order so far, with what is in the queue.
//!
//! In every order a put can be moved behind its neighbour, unless that is the
//! take of its arrival, or began after the put had ended: the answers stay the
//! same. So puts come as late as they can, and orders with other puts are not
//! tried.

use std::collections::HashSet;
use std::vec::IntoIter;

use crate::history::{Answer, Call, Kind};
use crate::set::Set;

/// An order, by places in the list: all finished calls and some of the others,
/// calls that do not overlap in the order of time, and each finished call with
/// the answer of a plain queue. The calls are listed by their start.
pub fn find_order<T: Copy + PartialEq>(calls: &[Call<T>]) -> Option<Vec<usize>> {
    if calls.iter().any(is_put_with_another_answer) {
        return None;
    }
    Search::new(calls).run()
}

/// Such a put stands in no order.
fn is_put_with_another_answer<T: Copy + PartialEq>(call: &Call<T>) -> bool {
    let stored = Answer::Stored(call.ticket);
    matches!(call.kind, Kind::Put { .. }) && call.end.map_or(false, |end| end.answer != stored)
}

#[derive(Clone, PartialEq, Eq, Hash)]
struct State {
    /// Calls in the order so far.
    ordered: Set,
    /// Puts in the queue, by rank.
    queue: Set,
}

/// The next call of an order; before a take perhaps the put of its arrival.
#[derive(Clone, Copy, Default)]
struct Step {
    put: Option<usize>,
    call: Option<usize>,
}

impl Step {
    fn calls(self) -> impl Iterator<Item = usize> {
        self.put.into_iter().chain(self.call)
    }
}

/// A state on the way, how it was reached, and what is not yet tried in it.
struct Visit {
    reached_by: Step,
    state: State,
    untried: IntoIter<Step>,
}

struct Search<'a, T> {
    calls: &'a [Call<T>],
    /// The puts from the lowest key to the highest: place and what is taken.
    puts: Vec<(usize, T)>,
    /// The rank of each call among the puts; of no use for a take.
    rank: Vec<usize>,
    /// By rank: whether not all arrivals that look like this one are answered.
    is_spare: Vec<bool>,
    seen: HashSet<State>,
}

impl<'a, T: Copy + PartialEq> Search<'a, T> {
    fn new(calls: &'a [Call<T>]) -> Self {
        let mut keys = Vec::new();
        for (place, call) in calls.iter().enumerate() {
            if let Kind::Put { time, order, shown } = call.kind {
                keys.push(((time, order, call.ticket), place, shown));
            }
        }
        keys.sort_unstable_by_key(|&(key, ..)| key);
        let puts: Vec<_> = keys
            .iter()
            .map(|&(_, place, taken)| (place, taken))
            .collect();
        let mut rank = vec![0; calls.len()];
        for (nth, &(place, _)) in puts.iter().enumerate() {
            rank[place] = nth;
        }
        let is_spare = puts.iter().map(|&(_, taken)| is_spare(calls, &puts, taken));
        Self {
            calls,
            rank,
            is_spare: is_spare.collect(),
            puts,
            seen: HashSet::new(),
        }
    }

    fn run(mut self) -> Option<Vec<usize>> {
        let nothing = State {
            ordered: Set::below(self.calls.len()),
            queue: Set::below(self.puts.len()),
        };
        if self.is_complete(&nothing) {
            return Some(Vec::new());
        }
        let mut way = vec![self.visit(Step::default(), nothing)];
        while let Some(visit) = way.last_mut() {
            let step = match visit.untried.next() {
                Some(step) => step,
                None => {
                    way.pop();
                    continue;
                }
            };
            let state = self.after(&visit.state, step);
            if self.is_complete(&state) {
                let steps = way.iter().map(|visit| visit.reached_by);
                return Some(steps.chain([step]).flat_map(Step::calls).collect());
            }
            if self.seen.insert(state.clone()) {
                way.push(self.visit(step, state));
            }
        }
        None
    }

    /// Whether every finished call is in the order.
    fn is_complete(&self, state: &State) -> bool {
        let mut calls = self.calls.iter().enumerate();
        calls.all(|(place, call)| call.end.is_none() || state.ordered.contains(place))
    }

    fn visit(&self, reached_by: Step, state: State) -> Visit {
        let untried = self.steps(&state).into_iter();
        Visit {
            reached_by,
            state,
            untried,
        }
    }

    /// The calls that may come next by their times; the first to end is the
    /// first, unfinished ones are the last.
    fn open(&self, ordered: &Set) -> Vec<usize> {
        let mut first_end = usize::MAX;
        let mut open = Vec::new();
        for (place, call) in self.calls.iter().enumerate() {
            // Those behind start and end later still.
            if call.start > first_end {
                break;
            }
            if !ordered.contains(place) {
                open.push(place);
                first_end = first_end.min(end(call));
            }
        }
        open.sort_by_key(|&place| end(&self.calls[place]));
        open
    }

    /// The steps with which the queue gives the answers of the calls.
    fn steps(&self, state: &State) -> Vec<Step> {
        let lowest = state.queue.first();
        let open = self.open(&state.ordered);
        let mut steps = Vec::new();
        let mut has_unfinished_take = false;
        for (nth, &place) in open.iter().enumerate() {
            let alone = Step {
                put: None,
                call: Some(place),
            };
            let call = &self.calls[place];
            match (call.kind, call.end) {
                // A put that can wait no longer; the others wait.
                (Kind::Put { .. }, Some(_)) if nth == 0 => steps.push(alone),
                (Kind::Put { .. }, _) => {}
                (Kind::Take, Some(end)) => {
                    if end.answer == self.answer(lowest) {
                        steps.push(alone);
                    }
                    for put in self.puts_for(end.answer, lowest, &open) {
                        let put = Some(put);
                        steps.push(Step { put, ..alone });
                    }
                }
                // Unfinished takes are all alike: one will do.
                (Kind::Take, None) => {
                    if !has_unfinished_take && lowest.map_or(false, |rank| self.is_spare[rank]) {
                        steps.push(alone);
                    }
                    has_unfinished_take = true;
                }
            }
        }
        steps
    }

    /// What the queue answers to a take.
    fn answer(&self, lowest: Option<usize>) -> Answer<T> {
        match lowest {
            None => Answer::Empty,
            Some(rank) => Answer::Took(self.puts[rank].1),
        }
    }

    /// The open puts that would be the lowest in the queue and give this answer.
    fn puts_for<'b>(
        &'b self,
        answer: Answer<T>,
        lowest: Option<usize>,
        open: &'b [usize],
    ) -> impl Iterator<Item = usize> + 'b {
        open.iter().copied().filter(move |&place| {
            let rank = self.rank[place];
            matches!(self.calls[place].kind, Kind::Put { .. })
                && lowest.map_or(true, |lowest| rank < lowest)
                && self.answer(Some(rank)) == answer
        })
    }

    fn after(&self, state: &State, step: Step) -> State {
        let mut state = state.clone();
        for place in step.calls() {
            state.ordered.insert(place);
            match (self.calls[place].kind, state.queue.first()) {
                (Kind::Put { .. }, _) => state.queue.insert(self.rank[place]),
                (Kind::Take, Some(lowest)) => state.queue.remove(lowest),
                (Kind::Take, None) => {}
            }
        }
        state
    }
}

/// When a call ended; never, for an unfinished one.
fn end<T>(call: &Call<T>) -> usize {
    call.end.as_ref().map_or(usize::MAX, |end| end.at)
}

/// Whether there are more puts of such an arrival than finished takes. Only then
/// an unfinished take can have one.
fn is_spare<T: Copy + PartialEq>(calls: &[Call<T>], puts: &[(usize, T)], taken: T) -> bool {
    let put = puts.iter().filter(|(_, other)| *other == taken).count();
    let ends = calls.iter().filter_map(|call| call.end);
    let answered = ends.filter(|end| end.answer == Answer::Took(taken)).count();
    put > answered
}
