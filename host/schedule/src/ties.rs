//! Arrivals of equal times, as scripts: the lower reflection order comes first, and of equal
//! orders the lower ticket.

use second::Arrival;

use crate::script::{put_arrival, reflection, took_reflection, Script};

/// Every case, by name.
pub fn cases() -> Vec<(&'static str, Script)> {
    vec![
        ("orders put in the wrong order", orders_in_the_wrong_order()),
        ("equal orders", equal_orders()),
        (
            "equal orders, the first put ends last",
            equal_orders_crossed(),
        ),
        (
            "the higher order begins first and ends last",
            orders_crossed(),
        ),
        (
            "a lower order at a later time, put first",
            later_time_first(),
        ),
        ("a lower order at a later time, put last", later_time_last()),
        ("two times and several orders", two_times()),
        (
            "ties while searches stand in the list",
            searches_in_the_list(),
        ),
    ]
}

/// One bucket, so that all are in one list.
fn fresh() -> Script {
    Script::open(4, 6, 1, 10)
}

/// Whole puts, each of so many turns.
fn stored(puts: &[(Arrival, usize)]) -> Script {
    let each = puts.iter();
    each.fold(fresh(), |script, &(arrival, turns)| {
        script.stored_arrival(0, arrival, turns)
    })
}

/// Whole takes of these, one after the other, and nothing is left. Each search stops at the
/// next node, if there is one.
fn drained(mut script: Script, arrivals: &[Arrival]) -> Script {
    for (nth, &arrival) in arrivals.iter().enumerate() {
        let turns = if nth + 1 < arrivals.len() { 8 } else { 7 };
        script = script.taken(0, turns, &took_reflection(arrival));
    }
    script.taken(0, 3, "empty")
}

/// Orders 2, 1 and 0: each put stops at the first node.
fn orders_in_the_wrong_order() -> Script {
    let [second, first, direct] = [2, 1, 0].map(|order| reflection(5, order, 7));
    let script = stored(&[(second, 5), (first, 6), (direct, 6)]);
    drained(script, &[direct, first, second])
}

/// Each put passes all nodes.
fn equal_orders() -> Script {
    let [a, b, c] = [3, 2, 1].map(|path| reflection(5, 1, path));
    drained(stored(&[(a, 5), (b, 6), (c, 7)]), &[a, b, c])
}

/// Ticket 1 stops at the node of ticket 2.
fn equal_orders_crossed() -> Script {
    let [a, b] = [2, 1].map(|path| reflection(5, 1, path));
    drained(crossed(a, b), &[a, b])
}

/// Ticket 1, of a higher order, passes the node of ticket 2.
fn orders_crossed() -> Script {
    let [a, b] = [1, 0].map(|order| reflection(5, order, 7));
    drained(crossed(a, b), &[b, a])
}

/// The put of the first begins, that of the second is made whole, then the first ends.
fn crossed(first: Arrival, second: Arrival) -> Script {
    fresh()
        .begin(put_arrival(0, first))
        .stored_arrival(1, second, 5)
        .end(0, 6, "stored 1")
}

/// The highest order stops at the lowest of a later time.
fn later_time_first() -> Script {
    let (later, earlier) = (reflection(6, 0, 1), reflection(5, 63, 2));
    drained(stored(&[(later, 5), (earlier, 6)]), &[earlier, later])
}

/// The lowest order passes the highest of an earlier time.
fn later_time_last() -> Script {
    let (earlier, later) = (reflection(5, 63, 1), reflection(6, 0, 2));
    drained(stored(&[(earlier, 5), (later, 6)]), &[earlier, later])
}

/// Two of each time. The last put passes both of 5 and stops at the other of 6.
fn two_times() -> Script {
    let [a, b, c, d] =
        [(6, 1), (5, 2), (5, 1), (6, 0)].map(|(time, order)| reflection(time, order, 7));
    drained(stored(&[(a, 5), (b, 6), (c, 6), (d, 8)]), &[c, b, d, a])
}

/// The arrivals of [`searches_in_the_list`], in the order of their tickets 1 to 4 and 6.
/// The first digit of each path is its order, the second its ticket.
fn searched() -> [Arrival; 5] {
    [(1, 11), (3, 32), (2, 23), (2, 24), (0, 6)].map(|(order, path)| reflection(5, order, path))
}

/// Orders 1 and 3 are stored. Worker 1's put of order 2 is about to link its node between
/// them (1, 2, 2, 4), when worker 2 does so with another of order 2 (1, 2, 2, 4 to 7).
pub fn about_to_link() -> Script {
    let [a, b, c, d, _] = searched();
    stored(&[(a, 5), (b, 6)])
        .begin(put_arrival(1, c))
        .turns(1, 4)
        .stored_arrival(2, d, 7)
}

/// Worker 3's take has come to order 1 (8, 9, 10), and order 0 is stored before it.
/// Worker 1 searches again: 5, 1, past orders 0 and 1, and 2 stops at ticket 4, which is
/// higher. It is about to link once more (4).
pub fn about_to_link_again() -> Script {
    let [.., e] = searched();
    about_to_link()
        .take(3)
        .turns(3, 3)
        .stored_arrival(2, e, 6)
        .turns(1, 6)
}

/// The take marks order 1. Worker 1 fails (5), searches (1, 2) and comes to the marked node,
/// which it is about to unlink (2).
pub fn about_to_unlink() -> Script {
    about_to_link_again().turns(3, 1).turns(1, 4)
}

/// The take's search passes order 0, which came later, and unlinks its own node (1, 2, 2, 3);
/// it ends at ticket 4 (2). Worker 1 fails (3) and links behind order 0 (1, 2, 2, 4 to 7).
fn searches_in_the_list() -> Script {
    let [a, b, c, d, e] = searched();
    let script = about_to_unlink()
        .end(3, 5, &took_reflection(a))
        .end(1, 8, "stored 3");
    drained(script, &[e, c, d, b])
}
