//! What the promises on the taken list suppose is needed: runs of the second
//! program in which a conclusion fails, as what is supposed fails. The promises
//! themselves hold in each.

use std::collections::BTreeSet;

use compare::taken_list;
use schedule::script::took;
use schedule::{orders, Script};
use second::layout::{field, head_at, node_at};
use second::{word, Arrival, Program, Record};

/// A call by the records of its start and end.
#[derive(Clone, Copy)]
struct Call<'a> {
    worker: u8,
    /// None for a take.
    put: Option<Arrival>,
    start: usize,
    end: Option<usize>,
    answer: &'a str,
}

impl Call<'_> {
    fn ended_before(&self, moment: usize) -> bool {
        self.end.map_or(false, |end| end < moment)
    }
}

/// The calls of a script by their tickets, from 1; and that its lines are right.
fn calls(script: &Script) -> Vec<Call<'_>> {
    assert_eq!(schedule::lines(&script.bytes()[..]), script.output());
    if let Err(violation) = taken_list::check(&script.bytes(), &script.output()) {
        panic!("{violation}");
    }
    let none = Call {
        worker: 0,
        put: None,
        start: 0,
        end: None,
        answer: "",
    };
    let mut calls = vec![none];
    for (at, (record, line)) in script.records().iter().zip(script.lines()).enumerate() {
        let (worker, put) = match *record {
            Record::EnqueueStart { worker, arrival } => (worker, Some(arrival)),
            Record::DequeueStart { worker } => (worker, None),
            Record::Step { worker } if line != "on" => {
                let ended = calls.iter_mut().rfind(|call| call.worker == worker);
                let ended = ended.unwrap();
                (ended.end, ended.answer) = (Some(at), line);
                continue;
            }
            _ => continue,
        };
        calls.push(Call {
            worker,
            put,
            start: at,
            ..none
        });
    }
    calls
}

/// What a plain queue answers to these calls, one after the other.
fn queue(calls: &[Call<'_>], tickets: &[usize]) -> Vec<String> {
    let mut keys = BTreeSet::new();
    let mut answer = |ticket: usize| match calls[ticket].put {
        Some(Arrival { time, order, .. }) => {
            keys.insert((time, order, ticket));
            format!("stored {ticket}")
        }
        None => match keys.iter().next().copied() {
            Some(lowest) => {
                keys.remove(&lowest);
                took(lowest.0)
            }
            None => "empty".to_string(),
        },
    };
    tickets.iter().map(|&ticket| answer(ticket)).collect()
}

/// The times in the lists that no take has marked, bucket by bucket.
fn in_the_lists(script: &Script) -> Vec<u64> {
    let mut program = Program::new();
    for &record in script.records() {
        program.apply(record).unwrap();
    }
    let shape = program.shape();
    let mut times = Vec::new();
    for bucket in 0..shape.buckets as usize {
        let mut node = word::successor(program.store()[head_at(bucket)]);
        while node != shape.nodes.into() {
            let at = node_at(shape.buckets as usize, node as usize);
            let link = program.store()[at + field::LINK];
            if !word::is_marked(link) {
                times.push(program.store()[at + field::TIME]);
            }
            node = word::successor(link);
        }
    }
    times
}

/// One bucket with 3 and 7. Take 3 has marked 3, and pauses.
fn one_is_held() -> Script {
    Script::open(2, 4, 1, 10)
        .stored(0, 3, 5)
        .stored(0, 7, 6)
        .take(1)
        .turns(1, 4)
}

/// 1 (used by one at a time): two calls overlap, and the answers are not the
/// queue's in the order of their starts.
#[test]
fn a_take_answers_what_was_put_after_its_start() {
    let script = Script::open(2, 4, 1, 10)
        .take(1)
        .stored(0, 5, 5)
        .end(1, 7, &took(5));
    let calls = calls(&script);
    assert!(!calls[1].ended_before(calls[2].start));
    assert_eq!(queue(&calls, &[1, 2]), ["empty", "stored 2"]);
    assert_eq!([calls[1].answer, calls[2].answer], [&took(5), "stored 2"]);
}

/// The same: nor are they the queue's in the order of their ends.
#[test]
fn a_take_answers_what_was_first_at_its_start() {
    let script = orders::take_set_into_the_past();
    let calls = calls(&script);
    assert!(calls[3].end < calls[2].end && calls[2].end < calls[4].end);
    let answers = queue(&calls, &[1, 3, 2, 4]);
    assert_eq!(answers[2..], [took(3), took(7)]);
    assert_eq!([calls[2].answer, calls[4].answer], [took(7), took(3)]);
}

/// 2 (nothing earlier is passed over): the put of 3 has not ended when the take
/// starts, and 3 is not marked when it ends: the take that answers it starts later.
#[test]
fn what_is_put_during_a_take_may_be_passed_over() {
    let script = orders::take_set_into_the_past();
    let calls = calls(&script);
    let (x, d, taker) = (calls[3], calls[2], calls[4]);
    let time = |call: Call<'_>| call.put.map(|arrival| arrival.time);
    assert!(time(x) < time(calls[1]) && d.answer == took(7));
    assert!(!x.ended_before(d.start) && x.ended_before(d.end.unwrap()));
    assert!(taker.answer == took(3) && d.ended_before(taker.start));
}

/// 3 (empty means empty): the put of 5 has linked its node before the take starts,
/// but has not ended; the take answers empty, and 5 is not marked.
#[test]
fn a_take_may_find_none_while_a_put_is_in_progress() {
    let linked = orders::linked_below_current();
    assert_eq!(in_the_lists(&linked), [5]);
    let empty = linked.taken(0, 3, "empty");
    assert_eq!(in_the_lists(&empty), [5]);
    let script = empty.end(1, 2, "stored 2").taken(0, 7, &took(5));
    let calls = calls(&script);
    let (x, d, taker) = (calls[2], calls[3], calls[4]);
    assert!(x.start < d.start && !x.ended_before(d.start) && d.answer == "empty");
    assert!(taker.answer == took(5) && d.ended_before(taker.start));
}

/// 4 (two takes): both 3 and 7 were put before the takes, but the takes overlap,
/// and 7 comes out before 3.
#[test]
fn takes_that_overlap_may_answer_in_another_order() {
    let script = one_is_held().taken(0, 10, &took(7)).end(1, 1, &took(3));
    let calls = calls(&script);
    let (c, d) = (calls[4], calls[3]);
    assert!(calls[1].ended_before(c.start) && calls[1].ended_before(d.start));
    assert!(!c.ended_before(d.start) && c.end < d.end);
    assert_eq!([c.answer, d.answer], [took(7), took(3)]);
}

/// The same: the takes do not overlap, but the put of 3 has not ended when the
/// first starts.
#[test]
fn two_takes_may_answer_in_another_order_what_came_between() {
    let script = orders::take_set_into_the_past();
    let calls = calls(&script);
    let (c, d, y) = (calls[2], calls[4], calls[3]);
    assert!(c.ended_before(d.start) && !y.ended_before(c.start));
    assert_eq!([c.answer, d.answer], [took(7), took(3)]);
}

/// 5 (once each): a put that has not linked its node is in no list, no take is in
/// progress, and none has answered it.
#[test]
fn a_put_in_progress_may_be_nowhere() {
    let script = Script::open(2, 4, 1, 10)
        .put(0, 5)
        .turns(0, 2)
        .taken(1, 3, "empty");
    let calls = calls(&script);
    assert!(calls[1].end.is_none() && calls[2].end.is_some());
    assert_eq!(in_the_lists(&script), []);
    assert!(calls.iter().all(|call| !call.answer.starts_with("took")));
}

/// 6 (drained): a take in progress has seen 3, which is in the lists with 7. It goes
/// on and takes 3, and takes one after the other answer 7 only.
#[test]
fn what_is_in_the_lists_is_not_drained_while_a_take_is_in_progress() {
    let place = Script::open(2, 4, 1, 10)
        .stored(0, 3, 5)
        .stored(0, 7, 6)
        .take(1)
        .turns(1, 3);
    assert_eq!(in_the_lists(&place), [3, 7]);
    let script = place.end(1, 5, &took(3));
    let script = script.taken(0, 7, &took(7)).taken(0, 3, "empty");
    let calls = calls(&script);
    let drained: Vec<&str> = calls[4..].iter().map(|call| call.answer).collect();
    assert_eq!(drained, [&took(7), "empty"]);
}

/// The same: a put in progress has linked 5, and a take answers empty.
#[test]
fn what_is_in_the_lists_is_not_drained_while_a_put_is_in_progress() {
    let linked = orders::linked_below_current();
    let script = linked.clone().taken(0, 3, "empty");
    let calls = calls(&script);
    assert!(calls[2].end.is_none());
    assert_eq!(in_the_lists(&linked), [5]);
    assert_eq!(calls[3].answer, "empty");
}
