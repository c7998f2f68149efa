//! The search, against one that simply tries everything.

use order::{find_order, Answer, End, Kind};
use random::Random;

/// Of an arrival a take shows one number, and several may show the same.
type Call = order::Call<u32>;

/// Calls of a few workers, with answers that may or may not be right.
fn random_calls(random: &mut Random) -> Vec<Call> {
    let workers = random.between(2, 4) as usize;
    let most = random.between(1, 6) as usize;
    let mut calls: Vec<Call> = Vec::new();
    let mut busy: Vec<Option<usize>> = vec![None; workers];
    for now in 0..random.between(2, 20) as usize {
        let worker = random.below(workers as u32) as usize;
        let call = &mut busy[worker];
        match call.take() {
            Some(place) => {
                let answer = random_answer(random, &calls, place);
                calls[place].end = Some(End { at: now, answer });
            }
            None if calls.len() < most => {
                *call = Some(calls.len());
                calls.push(Call {
                    ticket: calls.len() as u64 + 1,
                    worker,
                    kind: random_kind(random),
                    start: now,
                    end: None,
                });
            }
            None => {}
        }
    }
    calls
}

fn random_kind(random: &mut Random) -> Kind<u32> {
    let (time, order, other) = (random.below(2), random.below(2), random.below(2));
    let shown = 4 * time + 2 * order + other;
    random.choose(&[put(time, order, shown), Kind::Take])
}

fn put(time: u32, order: u32, shown: u32) -> Kind<u32> {
    Kind::Put { time, order, shown }
}

fn random_answer(random: &mut Random, calls: &[Call], place: usize) -> Answer<u32> {
    match calls[place].kind {
        Kind::Put { .. } => Answer::Stored(calls[place].ticket),
        Kind::Take => {
            let mut answers = vec![Answer::Empty];
            for call in calls {
                if let Kind::Put { shown, .. } = call.kind {
                    answers.push(Answer::Took(shown));
                }
            }
            random.choose(&answers)
        }
    }
}

/// Whether an order is one: every finished call once, the others at most once,
/// in the order of time, and with the answers of a queue kept as a plain list.
fn is_order(calls: &[Call], order: &[usize]) -> bool {
    let count = |place| order.iter().filter(|&&other| other == place).count();
    let complete = (0..calls.len()).all(|place| {
        let least = usize::from(calls[place].end.is_some());
        (least..=1).contains(&count(place))
    });
    let in_time = (0..order.len()).all(|i| {
        let start = calls[order[i]].start;
        let later = order[i + 1..].iter().filter_map(|&place| calls[place].end);
        later.into_iter().all(|end| end.at > start)
    });
    complete && in_time && answers_of_a_queue(calls, order)
}

fn answers_of_a_queue(calls: &[Call], places: &[usize]) -> bool {
    let mut queue: Vec<(u32, u32, u64, u32)> = Vec::new();
    places.iter().all(|&place| {
        let call = calls[place];
        let answer = match call.kind {
            Kind::Put { time, order, shown } => {
                queue.push((time, order, call.ticket, shown));
                Answer::Stored(call.ticket)
            }
            Kind::Take => {
                queue.sort_by_key(|&(time, order, ticket, _)| (time, order, ticket));
                match queue.is_empty() {
                    true => Answer::Empty,
                    false => Answer::Took(queue.remove(0).3),
                }
            }
        };
        call.end.map_or(true, |end| end.answer == answer)
    })
}

/// Tries every arrangement of every subset.
fn try_everything(calls: &[Call], order: &mut Vec<usize>) -> bool {
    if is_order(calls, order) {
        return true;
    }
    for place in 0..calls.len() {
        if !order.contains(&place) {
            order.push(place);
            if try_everything(calls, order) {
                return true;
            }
            order.pop();
        }
    }
    false
}

/// The same calls with all reflection orders equal.
fn with_equal_orders(calls: &[Call]) -> Vec<Call> {
    let mut calls = calls.to_vec();
    for call in &mut calls {
        if let Kind::Put { order, .. } = &mut call.kind {
            *order = 0;
        }
    }
    calls
}

/// The same calls with the last ticket first.
fn with_tickets_reversed(calls: &[Call]) -> Vec<Call> {
    let mut calls = calls.to_vec();
    let reversed = |ticket: u64| 100 - ticket;
    for call in &mut calls {
        call.ticket = reversed(call.ticket);
        if let Some(Answer::Stored(ticket)) = call.end.as_mut().map(|end| &mut end.answer) {
            *ticket = reversed(*ticket);
        }
    }
    calls
}

#[test]
fn finds_an_order_exactly_if_there_is_one() {
    let random = &mut Random::new(1);
    let (mut with, mut without, mut by_order, mut by_ticket) = (0, 0, 0, 0);
    for _ in 0..20_000 {
        let calls = random_calls(random);
        let found = find_order(&calls);
        let is_found = |calls: Vec<Call>| find_order(&calls).is_some();
        by_order += usize::from(is_found(with_equal_orders(&calls)) != found.is_some());
        by_ticket += usize::from(is_found(with_tickets_reversed(&calls)) != found.is_some());
        match found {
            Some(order) => {
                assert!(is_order(&calls, &order), "{calls:?} {order:?}");
                with += 1;
            }
            None => {
                assert!(!try_everything(&calls, &mut Vec::new()), "{calls:?}");
                without += 1;
            }
        }
    }
    println!("{with} with an order, {without} without; {by_order} by order, {by_ticket} by ticket");
    assert!(with > 1_000 && without > 1_000, "{with} {without}");
    assert!(by_order > 100 && by_ticket > 100, "{by_order} {by_ticket}");
}

/// Calls of one worker: puts of these times and orders, and takes that show the nth.
fn one_by_one(puts: &[(u32, u32)], taken: &[u32]) -> Vec<Call> {
    let puts = (0..).zip(puts);
    let puts = puts.map(|(nth, &(time, order))| (put(time, order, nth), None));
    let takes = taken.iter().map(|&nth| (Kind::Take, Some(nth)));
    let each = (0..).zip(puts.chain(takes));
    each.map(|(place, (kind, shown))| {
        let ticket = place as u64 + 1;
        let answer = shown.map_or(Answer::Stored(ticket), Answer::Took);
        let at = 2 * place + 1;
        Call {
            worker: 0,
            ticket,
            kind,
            start: 2 * place,
            end: Some(End { at, answer }),
        }
    })
    .collect()
}

/// Taken by time, then by order, then by ticket; and not with two of them exchanged.
#[test]
fn keys() {
    for (puts, taken) in [
        // Orders in the wrong order.
        (&[(5, 2), (5, 1), (5, 0)][..], &[2, 1, 0][..]),
        // All equal.
        (&[(5, 1), (5, 1), (5, 1)], &[0, 1, 2]),
        // A lower order at a later time.
        (&[(6, 0), (5, 63)], &[1, 0]),
        (&[(5, 63), (6, 0)], &[0, 1]),
        // All of it.
        (
            &[(5, 1), (6, 0), (5, 0), (5, 1), (4, 2), (5, 0)],
            &[4, 2, 5, 0, 3, 1],
        ),
    ] {
        assert!(find_order(&one_by_one(puts, taken)).is_some(), "{puts:?}");
        for first in 1..taken.len() {
            let mut exchanged = taken.to_vec();
            exchanged.swap(first - 1, first);
            assert!(
                find_order(&one_by_one(puts, &exchanged)).is_none(),
                "{puts:?} {exchanged:?}"
            );
        }
    }
}

/// Fourteen calls over one another: seven puts, and takes of what they put. If one
/// is lost, another is taken twice, in the last round.
fn all_at_once(rounds: usize, lost: bool) -> Vec<Call> {
    let mut calls = Vec::new();
    for round in 0..rounds {
        let is_lost = |worker| lost && round + 1 == rounds && worker == 13;
        for worker in 0..14 {
            let time = worker as u32 % 7;
            let ticket = calls.len() as u64 + 1;
            let (kind, answer) = match worker {
                0..=6 => (put(time, 0, time), Answer::Stored(ticket)),
                _ if is_lost(worker) => (Kind::Take, Answer::Took(0)),
                _ => (Kind::Take, Answer::Took(time)),
            };
            let at = 100 * round + 90 - worker;
            calls.push(Call {
                worker,
                ticket,
                kind,
                start: 100 * round + worker,
                end: Some(End { at, answer }),
            });
        }
    }
    calls
}

#[test]
fn fourteen_calls_at_once() {
    let calls = all_at_once(20, false);
    let order = find_order(&calls).unwrap();
    assert!(is_order(&calls, &order));
    assert_eq!(find_order(&all_at_once(20, true)), None);
}
