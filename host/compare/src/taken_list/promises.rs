//! The promises on the taken list, each on what is seen of a history. They are
//! proved of the pool; the numbers are theirs.

use std::fmt;

use crate::taken_list::seen::Seen;

#[derive(Clone, Copy, Debug, PartialEq, Eq, PartialOrd, Ord)]
pub enum Promise {
    NothingPassedOver,
    EmptyMeansEmpty,
    TwoTakes,
    OnceEach,
}

impl fmt::Display for Promise {
    fn fmt(&self, f: &mut fmt::Formatter<'_>) -> fmt::Result {
        f.write_str(match self {
            Self::NothingPassedOver => "promise 2 (nothing earlier is passed over)",
            Self::EmptyMeansEmpty => "promise 3 (empty means empty)",
            Self::TwoTakes => "promise 4 (two takes)",
            Self::OnceEach => "promise 5 (once each)",
        })
    }
}

/// Where a promise does not hold.
#[derive(Clone, Debug, PartialEq, Eq)]
pub struct Breach {
    /// The place of the record at which it shows.
    pub at: usize,
    /// The calls that show it.
    pub tickets: Vec<u64>,
    pub text: String,
}

/// 2. If the put of x ended before take d started, and d answered y with x's key
/// below y's, then x is marked when d ends: another take has answered it or holds
/// it.
///
/// What is marked stays so: of all d the one that ended first will do.
pub fn nothing_earlier_is_passed_over(seen: &Seen) -> Vec<Breach> {
    unmarked_at_the_end(seen, &seen.later, "answered a later arrival")
}

/// 3. If take d answers empty, every arrival whose put ended before d started is
/// marked when d ends.
pub fn empty_means_empty(seen: &Seen) -> Vec<Breach> {
    unmarked_at_the_end(seen, &seen.empty, "answered empty")
}

/// 4. If take c ended before take d started, c answered x and d answered y, and y's
/// put had ended before c started, then x's key is below y's.
///
/// Of all c with a higher key than y's the one that ended first will do. Who breaks
/// this breaks 2 as well: d had not started when c ended, so y was not marked.
pub fn two_takes(seen: &Seen) -> Vec<Breach> {
    let mut breaches = Vec::new();
    for (y, d) in seen.takers.answered(&seen.calls) {
        let d = &seen.calls.takes[d];
        let c = seen.later[y].map(|c| &seen.calls.takes[c]);
        if let Some(c) = c.filter(|c| c.end < d.start) {
            let (at, y, c, d) = (d.end, seen.calls.puts[y].ticket, c.ticket, d.ticket);
            breaches.push(Breach {
                at,
                tickets: vec![y, c, d],
                text: format!(
                    "put {y} had ended before take {c} started, and take {c} before take {d}; \
                     take {d} answered put {y}, and take {c} a later arrival"
                ),
            });
        }
    }
    breaches
}

/// 5. The arrivals answered are arrivals put, with all their fields, no two answers
/// from one put; after any list, each put that ended is answered by exactly one
/// take, held by exactly one, or still in the lists.
///
/// Which of the last two it is cannot be seen. But a put has a node from its start
/// until its arrival is answered, so no more puts are begun and not answered than
/// the pool has nodes.
pub fn once_each(seen: &Seen) -> Vec<Breach> {
    let mut breaches = answers_from_no_put(seen);
    breaches.extend(more_than_nodes(seen));
    breaches
}

fn answers_from_no_put(seen: &Seen) -> Vec<Breach> {
    let (puts, takes) = (&seen.calls.puts, &seen.calls.takes);
    let breach = |&(take, alike): &(usize, Option<usize>)| {
        let mut tickets = Vec::new();
        if let Some(alike) = alike {
            let group = &seen.alike.groups[alike];
            tickets.extend(group.puts.iter().map(|&put| puts[put].ticket));
            tickets.extend(group.takes.iter().map(|&take| takes[take].ticket));
        }
        tickets.push(takes[take].ticket);
        let why = match alike {
            Some(_) => "that other takes had answered, once for each put of it",
            None => "of which no put had had a turn",
        };
        let text = format!("take {} answered an arrival {why}", takes[take].ticket);
        Breach {
            at: takes[take].end,
            tickets,
            text,
        }
    };
    seen.alike.from_no_put.iter().map(breach).collect()
}

/// The first put that began when all nodes had arrivals.
fn more_than_nodes(seen: &Seen) -> Option<Breach> {
    let Seen { nodes, calls, .. } = seen;
    let answered = calls.takes.iter().filter(|take| take.answer.is_some());
    let mut answered: Vec<usize> = answered.map(|take| take.end).collect();
    answered.sort_unstable();
    for (before, put) in calls.puts.iter().enumerate() {
        let answered = answered.partition_point(|&end| end < put.start);
        let not_answered = before.saturating_sub(answered);
        if not_answered >= *nodes {
            let text = format!(
                "put {} began when {not_answered} puts were not answered, in a pool of {nodes} nodes",
                put.ticket
            );
            return Some(Breach {
                at: put.start,
                tickets: vec![put.ticket],
                text,
            });
        }
    }
    None
}

/// Of each put x that has such a take d: x is not marked when d ends.
fn unmarked_at_the_end(seen: &Seen, takes: &[Option<usize>], answered: &str) -> Vec<Breach> {
    let each = takes.iter().enumerate();
    each.filter_map(|(x, &d)| Some((x, d?)))
        .filter(|&(x, d)| !seen.is_marked(x, seen.calls.takes[d].end))
        .map(|(x, d)| unmarked(seen, x, d, answered))
        .collect()
}

/// The arrival x that is not marked when take d ends.
fn unmarked(seen: &Seen, x: usize, d: usize, answered: &str) -> Breach {
    let (put, take) = (&seen.calls.puts[x], &seen.calls.takes[d]);
    let (x_ticket, d_ticket) = (put.ticket, take.ticket);
    let mut tickets = vec![x_ticket, d_ticket];
    let mut text = format!(
        "put {x_ticket} had ended before take {d_ticket} started, which {answered}; \
         when it ended, no take had answered or could hold put {x_ticket}"
    );
    if let Some(taker) = seen.takers.of_put(x) {
        let taker = seen.calls.takes[taker].ticket;
        tickets.push(taker);
        text.push_str(&format!(", which take {taker} answered"));
    }
    Breach {
        at: take.end,
        tickets,
        text,
    }
}
