//! Arrivals that look the same in a line: it has neither ticket nor distance, so
//! which of their puts an answer came from is not known.
//!
//! A group has the puts of alike arrivals that can be mistaken for each other, and
//! their answers. Once as many were answered as have had a turn, the next put
//! begins another group: an answer comes from a put that had a turn before it. So a
//! group of several needs alike arrivals in the pool at the same time.

use std::collections::HashMap;

use crate::line::Taken;
use crate::taken_list::calls::{Calls, Key, NEVER};

/// Puts by their first turn and takes by their end, as numbers in [`Calls`].
#[derive(Clone, Debug, Default)]
pub struct Group {
    pub puts: Vec<usize>,
    pub takes: Vec<usize>,
}

#[derive(Clone, Debug, Default)]
pub struct Alike {
    pub groups: Vec<Group>,
    /// Takes that answered when no put was left for it, with the group of the last
    /// alike arrivals, if there were any.
    pub from_no_put: Vec<(usize, Option<usize>)>,
}

enum Event {
    FirstTurn(usize),
    Answer(usize),
}

impl Alike {
    pub fn of(calls: &Calls) -> Self {
        let mut alike = Self::default();
        let mut latest = HashMap::new();
        for (taken, event) in events(calls) {
            let group = latest.get(&taken).copied();
            match event {
                Event::FirstTurn(put) => {
                    let group = match group {
                        Some(group) if alike.is_open(group) => group,
                        _ => alike.open(),
                    };
                    latest.insert(taken, group);
                    alike.groups[group].puts.push(put);
                }
                Event::Answer(take) => match group {
                    Some(group) if alike.is_open(group) => alike.groups[group].takes.push(take),
                    _ => alike.from_no_put.push((take, group)),
                },
            }
        }
        alike
    }

    fn open(&mut self) -> usize {
        self.groups.push(Group::default());
        self.groups.len() - 1
    }

    /// Whether not all puts of a group are answered.
    fn is_open(&self, group: usize) -> bool {
        let Group { puts, takes } = &self.groups[group];
        takes.len() < puts.len()
    }

    /// For each answer the lowest key that it can have.
    pub fn lowest_keys<'a>(&'a self, calls: &'a Calls) -> impl Iterator<Item = (Key, usize)> + 'a {
        self.groups.iter().flat_map(move |group| {
            let keys = group.puts.iter().map(|&put| calls.puts[put].key());
            let lowest = keys.min();
            let takes = group.takes.iter();
            takes.filter_map(move |&take| Some((lowest?, take)))
        })
    }
}

/// First turns of puts and answers of takes, in the order of time.
fn events(calls: &Calls) -> impl Iterator<Item = (Taken, Event)> {
    let mut events = Vec::new();
    for (number, put) in calls.puts.iter().enumerate() {
        if put.first_turn != NEVER {
            events.push((put.first_turn, put.shown, Event::FirstTurn(number)));
        }
    }
    for (number, take) in calls.takes.iter().enumerate() {
        if let Some(taken) = take.answer {
            events.push((take.end, taken, Event::Answer(number)));
        }
    }
    events.sort_unstable_by_key(|&(at, ..)| at);
    events.into_iter().map(|(_, taken, event)| (taken, event))
}
