//! The orders that catch an engine out, as scripts. Each has a beginning, up to
//! where a wrong engine goes astray, and a right ending.

use second::Arrival;

use crate::script::{arrival, put, put_arrival, reflection, took, Script};

/// Every order with its right ending, by name.
pub fn cases() -> Vec<(&'static str, Script)> {
    vec![
        ("a node of a higher epoch", sent_back()),
        ("the same in the tail", sent_back_after(FAR)),
        ("a node stood on", stood_on_rests()),
        ("a marked node", marked_stays_in_use()),
        ("linked below current", stored_after_lowering()),
        ("a stale advance", stale_advance_fails()),
        ("a take in the tail", take_in_the_tail()),
        ("a tie", tie()),
    ]
}

/// One bucket with 10 and 20; worker 0 reads current and pauses; 12 and then 15
/// are stored; worker 1 takes 10 and 12; worker 0 comes to 15.
pub fn paused_before_15() -> Script {
    paused_after(0)
}

/// So many samples later 20 is the last time there is.
const FAR: u32 = u32::MAX - 20;

/// The same, with every time so many samples later: still in the one bucket.
fn paused_after(samples: u32) -> Script {
    Script::open(2, 4, 1, 100)
        .stored(0, samples + 10, 5)
        .stored(0, samples + 20, 6)
        .take(0)
        .turns(0, 1)
        .stored(1, samples + 12, 7)
        .stored(1, samples + 15, 8)
        .taken(1, 8, &took(samples + 10))
        .taken(1, 8, &took(samples + 12))
        .turns(0, 1)
}

/// The taker reads current again before it takes 15.
pub fn sent_back() -> Script {
    sent_back_after(0)
}

fn sent_back_after(samples: u32) -> Script {
    paused_after(samples)
        .turns(0, 2)
        .end(0, 7, &took(samples + 15))
        .taken(1, 7, &took(samples + 20))
        .taken(1, 3, "empty")
}

/// Two nodes. 10 is stored in node 0; the put of 20 stands on node 0 as its left
/// and is about to link; worker 2 takes 10 to the end.
pub fn stood_on_by_a_put() -> Script {
    Script::open(3, 2, 1, 100)
        .stored(0, 10, 5)
        .put(1, 20)
        .turns(1, 3)
        .taken(2, 7, &took(10))
}

/// Node 0 is free only when the put has ended, after a second search.
pub fn stood_on_rests() -> Script {
    stood_on_by_a_put()
        .refused(put(2, 30), 12)
        .turns(1, 1)
        .end(1, 5, "stored 2")
        .stored(2, 30, 6)
        .taken(0, 8, &took(20))
        .taken(0, 7, &took(30))
}

/// One node, holding 10, marked by worker 0, which pauses before its search.
pub fn marked_and_paused() -> Script {
    Script::open(2, 1, 1, 100)
        .stored(0, 10, 5)
        .take(0)
        .turns(0, 4)
}

pub fn marked_stays_in_use() -> Script {
    marked_and_paused()
        .refused(put(1, 30), 12)
        .end(0, 3, &took(10))
        .stored(1, 30, 5)
        .taken(0, 7, &took(30))
}

/// Current has gone to bucket 1; the put of 5 has linked its node in bucket 0.
pub fn linked_below_current() -> Script {
    Script::open(2, 4, 2, 10)
        .taken(0, 5, "empty")
        .put(1, 5)
        .turns(1, 3)
}

/// A take before the end of the put may miss it; one after may not.
pub fn stored_after_lowering() -> Script {
    linked_below_current()
        .taken(0, 3, "empty")
        .end(1, 2, "stored 2")
        .taken(0, 7, &took(5))
}

/// Worker 0 saw bucket 0 empty in (0, 0) and pauses before advancing; worker 1
/// walks to the last bucket; worker 2 stores 5, lowering current.
pub fn stale_advance() -> Script {
    Script::open(3, 4, 2, 10)
        .take(0)
        .turns(0, 2)
        .taken(1, 5, "empty")
        .stored(2, 5, 5)
}

pub fn stale_advance_fails() -> Script {
    stale_advance()
        .turns(0, 1)
        .end(0, 7, &took(5))
        .taken(1, 5, "empty")
}

/// Worker 1's take has seen 7 and pauses; 3 is stored; the take answers 7, and the
/// next one 3. It stands before the put of 3, which ended first.
pub fn take_set_into_the_past() -> Script {
    Script::open(2, 4, 1, 10)
        .stored(0, 7, 5)
        .take(1)
        .turns(1, 3)
        .stored(0, 3, 6)
        .end(1, 5, &took(7))
        .taken(0, 7, &took(3))
}

/// Worker 1's take has come to the first of two at 1,000, in the last bucket; 5 is stored
/// before it. The take answers 1,000, and the next ones 5, the other 1,000 and the last.
pub fn take_in_the_tail() -> Script {
    let from = |time, distance| Arrival {
        distance,
        ..arrival(time)
    };
    Script::open(2, 4, 2, 10)
        .begin(put_arrival(0, from(u32::MAX, 3)))
        .end(0, 4, "stored 1")
        .begin(put_arrival(1, from(1_000, 5)))
        .end(1, 5, "stored 2")
        .begin(put_arrival(0, from(1_000, 1)))
        .end(0, 6, "stored 3")
        .take(1)
        .turns(1, 5)
        .begin(put_arrival(0, from(5, 1_024)))
        .end(0, 5, "stored 5")
        .end(1, 5, "took 1000 7 1 671088")
        .taken(0, 7, "took 5 7 1 16")
        .taken(0, 10, "took 1000 7 1 16777216")
        .taken(0, 7, "took 4294967295 7 1 1864135")
        .taken(0, 3, "empty")
}

/// All at time 5: worker 1's take has come to order 1; order 0 is stored in front of it, and the
/// take answers what it came to. Orders 63, 1 and 1 are stored, and order 0 is taken. Then one of
/// order 0 is stored at time 6: it comes out last.
pub fn tie() -> Script {
    Script::open(2, 4, 1, 10)
        .stored_arrival(0, reflection(5, 1, 21), 5)
        .take(1)
        .turns(1, 3)
        .stored_arrival(0, reflection(5, 0, 23), 6)
        .end(1, 5, "took 5 21 1 1864135")
        .stored_arrival(0, reflection(5, 63, 24), 6)
        .stored_arrival(0, reflection(5, 1, 26), 7)
        .stored_arrival(0, reflection(5, 1, 25), 8)
        .taken(0, 8, "took 5 23 0 1864135")
        .stored_arrival(0, reflection(6, 0, 28), 8)
        .taken(0, 8, "took 5 26 1 1864135")
        .taken(0, 8, "took 5 25 1 1864135")
        .taken(0, 8, "took 5 24 63 1864135")
        .taken(0, 7, "took 6 28 0 1864135")
        .taken(0, 3, "empty")
}
