//! The promises on the taken list: histories made by hand, on both sides of each
//! boundary.

use compare::taken_list::{check, Promise, Violation};
use schedule::script::{put_arrival, reflection, took, took_reflection};
use schedule::{by_hand, orders, Script};
use second::Arrival;

/// The promises broken, each with the calls that show it.
fn broken(script: &Script) -> Vec<(Promise, Vec<u64>)> {
    match check(&script.bytes(), &script.output()) {
        Ok(_) => Vec::new(),
        Err(Violation::Broken(broken)) => broken
            .into_iter()
            .map(|one| (one.promise, one.breach.tickets))
            .collect(),
        Err(Violation::Fault(fault)) => panic!("{fault}"),
    }
}

#[track_caller]
fn accept(script: Script) {
    assert_eq!(broken(&script), []);
}

#[track_caller]
fn refuse(script: Script, promise: Promise, tickets: &[u64]) {
    assert_eq!(broken(&script), [(promise, tickets.to_vec())]);
}

/// One bucket, so that any times go.
fn fresh() -> Script {
    Script::open(4, 8, 1, 100)
}

/// Put 1 is of 20, put 2 of 10; both have ended.
fn both() -> Script {
    fresh().stored(0, 20, 5).stored(0, 10, 5)
}

#[test]
fn right_runs_by_hand() {
    let (input, output) = by_hand::WORKED_EXAMPLE;
    assert!(check(input, output).is_ok());
    for (_, script) in by_hand::cases() {
        accept(script);
    }
    for (_, script) in orders::cases() {
        accept(script);
    }
}

#[test]
fn the_put_ends_just_before_the_take_starts_or_just_after() {
    let nearly = fresh().stored(0, 20, 5).put(0, 10).turns(0, 4);
    let before = nearly.clone().end(0, 1, "stored 2").take(1);
    let after = nearly.take(1).end(0, 1, "stored 2");
    refuse(
        before.clone().end(1, 7, &took(20)),
        Promise::NothingPassedOver,
        &[2, 3],
    );
    accept(after.clone().end(1, 7, &took(20)));
    // Put 1 had ended in any case.
    let taken = |script: Script| script.end(1, 7, &took(20)).stored(2, 30, 5);
    refuse(
        taken(before).taken(1, 7, &took(30)),
        Promise::NothingPassedOver,
        &[2, 3],
    );
    refuse(
        taken(after).taken(1, 7, &took(30)),
        Promise::NothingPassedOver,
        &[2, 5],
    );
}

/// The take that gets 10 has its first turn just before the other ends, or after.
#[test]
fn another_take_can_hold_what_it_has_had_a_turn_for() {
    let nearly = both().take(1).turns(1, 6).take(2);
    let before = nearly.clone().turns(2, 1).end(1, 1, &took(20));
    let after = nearly.end(1, 1, &took(20)).turns(2, 1);
    accept(before.clone());
    accept(before.clone().end(2, 6, &took(10)));
    refuse(after.clone(), Promise::NothingPassedOver, &[2, 3]);
    refuse(
        after.end(2, 6, &took(10)),
        Promise::NothingPassedOver,
        &[2, 3, 4],
    );
    // A take that answers empty held nothing.
    assert_eq!(
        broken(&before.end(2, 6, "empty")),
        [
            (Promise::NothingPassedOver, vec![2, 3]),
            (Promise::EmptyMeansEmpty, vec![2, 4]),
        ]
    );
}

#[test]
fn a_take_holds_what_it_answers() {
    let held = both().stored(0, 5, 5).take(2).turns(2, 4);
    accept(held.clone().taken(1, 7, &took(10)));
    let other = held.taken(1, 7, &took(10)).end(2, 3, &took(20));
    refuse(other, Promise::NothingPassedOver, &[3, 5]);
}

#[test]
fn one_take_in_progress_holds_one_arrival() {
    let three = both().stored(0, 30, 5);
    let one = three.take(1).turns(1, 4);
    accept(one.clone().taken(0, 7, &took(20)));
    refuse(
        one.clone().taken(0, 7, &took(30)),
        Promise::NothingPassedOver,
        &[2, 5],
    );
    accept(one.take(2).turns(2, 4).taken(0, 7, &took(30)));
    // Each of two may be held, but not both by the same.
    let one = both().take(1).turns(1, 4);
    refuse(
        one.clone().taken(0, 3, "empty"),
        Promise::EmptyMeansEmpty,
        &[2, 4],
    );
    accept(one.take(2).turns(2, 4).taken(0, 3, "empty"));
}

/// For one it is held in time, for the other not.
#[test]
fn what_is_due_first_is_held_by_the_first() {
    let first = both()
        .take(1)
        .turns(1, 1)
        .taken(0, 7, &took(20))
        .take(2)
        .turns(2, 1);
    accept(first.clone());
    let late = both()
        .take(1)
        .taken(0, 7, &took(20))
        .turns(1, 1)
        .take(2)
        .turns(2, 1);
    refuse(late, Promise::NothingPassedOver, &[2, 4]);
}

#[test]
fn the_put_ends_just_before_the_take_that_finds_none() {
    let nearly = fresh().put(0, 10).turns(0, 4);
    let before = nearly.clone().end(0, 1, "stored 1").take(1);
    let after = nearly.take(1).end(0, 1, "stored 1");
    refuse(
        before.clone().end(1, 3, "empty"),
        Promise::EmptyMeansEmpty,
        &[1, 2],
    );
    accept(after.clone().end(1, 3, "empty"));
    refuse(
        before.end(1, 3, "empty").taken(1, 7, &took(10)),
        Promise::EmptyMeansEmpty,
        &[1, 2, 3],
    );
    accept(after.end(1, 3, "empty").taken(1, 7, &took(10)));
}

#[test]
fn empty_while_another_take_can_hold_it() {
    let nearly = fresh().stored(0, 10, 5).take(1).turns(1, 2).take(2);
    let before = nearly.clone().turns(2, 1).end(1, 1, "empty");
    let after = nearly.end(1, 1, "empty").turns(2, 1);
    accept(before.clone());
    accept(before.end(2, 6, &took(10)));
    refuse(after.clone(), Promise::EmptyMeansEmpty, &[1, 2]);
    refuse(
        after.end(2, 6, &took(10)),
        Promise::EmptyMeansEmpty,
        &[1, 2, 3],
    );
}

/// Two takes in the wrong order have passed over something, too: when the first
/// ended, the second had not started.
#[test]
fn two_takes_in_the_wrong_order() {
    let passed_over = (Promise::NothingPassedOver, vec![2, 3, 4]);
    let two_takes = (Promise::TwoTakes, vec![2, 3, 4]);
    let apart = both().taken(1, 7, &took(20)).taken(2, 7, &took(10));
    assert_eq!(broken(&apart), [passed_over.clone(), two_takes]);
    // The second starts just before the first ends, and has had no turn yet.
    let started = both()
        .take(1)
        .turns(1, 6)
        .take(2)
        .end(1, 1, &took(20))
        .end(2, 7, &took(10));
    assert_eq!(broken(&started), [passed_over]);
    let overlapping = both()
        .take(1)
        .turns(1, 6)
        .take(2)
        .turns(2, 1)
        .end(1, 1, &took(20))
        .end(2, 6, &took(10));
    accept(overlapping);
}

#[test]
fn the_put_ends_just_before_the_first_of_two_takes() {
    let nearly = fresh().stored(0, 20, 5).put(0, 10).turns(0, 4);
    let takes = |script: Script| script.end(1, 7, &took(20)).taken(2, 7, &took(10));
    let before = takes(nearly.clone().end(0, 1, "stored 2").take(1));
    let promises: Vec<Promise> = broken(&before).into_iter().map(|(one, _)| one).collect();
    assert_eq!(promises, [Promise::NothingPassedOver, Promise::TwoTakes]);
    accept(takes(nearly.take(1).end(0, 1, "stored 2")));
}

/// Put 1 begins first and ends last; a take then gets one of the two.
fn crossed(puts: [Arrival; 2], taken: Arrival) -> Script {
    fresh()
        .begin(put_arrival(0, puts[0]))
        .begin(put_arrival(1, puts[1]))
        .end(1, 5, "stored 2")
        .end(0, 5, "stored 1")
        .taken(2, 7, &took_reflection(taken))
}

/// Of equal times the lower reflection order comes first, also if its put began last; and
/// a lower order does not pass an earlier time.
#[test]
fn equal_times_by_order() {
    for [first, second] in [
        [reflection(10, 0, 7), reflection(10, 1, 7)],
        [reflection(10, 62, 1), reflection(10, 63, 0)],
        [reflection(10, 63, 7), reflection(11, 0, 7)],
    ] {
        for (puts, passed_over) in [([first, second], 1), ([second, first], 2)] {
            accept(crossed(puts, first));
            let wrong = crossed(puts, second);
            refuse(wrong, Promise::NothingPassedOver, &[passed_over, 3]);
        }
    }
}

/// Of equal times and orders the lower ticket comes first, also if its put ended last.
#[test]
fn equal_times_and_orders_by_ticket() {
    let puts = [2, 1].map(|path| reflection(10, 1, path));
    accept(crossed(puts, puts[0]));
    let wrong = crossed(puts, puts[1]);
    refuse(wrong, Promise::NothingPassedOver, &[1, 3]);
}

#[test]
fn answered_twice() {
    let once = fresh().stored(0, 10, 5).taken(0, 7, &took(10));
    accept(once.clone());
    refuse(
        once.clone().taken(1, 7, &took(10)),
        Promise::OnceEach,
        &[1, 2, 3],
    );
    // Once for each put.
    let again = once.stored(0, 10, 5).taken(0, 7, &took(10));
    accept(again.clone());
    refuse(again.taken(1, 7, &took(10)), Promise::OnceEach, &[3, 4, 5]);
}

#[test]
fn answered_with_other_fields() {
    let stored = fresh().stored(0, 10, 5);
    for other in [
        "took 11 7 1 1864135",
        "took 10 8 1 1864135",
        "took 10 7 2 1864135",
        "took 10 7 1 1864134",
    ] {
        let promises = broken(&stored.clone().taken(1, 7, other));
        assert!(
            promises.contains(&(Promise::OnceEach, vec![2])),
            "{promises:?}"
        );
    }
}

/// A start links nothing: its arrival can be answered once it has had a turn.
#[test]
fn answered_before_the_put_has_had_a_turn() {
    let nearly = fresh().take(1).turns(1, 6).put(0, 10);
    accept(nearly.clone().turns(0, 1).end(1, 1, &took(10)));
    refuse(
        nearly.end(1, 1, &took(10)).turns(0, 1),
        Promise::OnceEach,
        &[1],
    );
}

/// A pool of two nodes has room for two arrivals that no take has answered.
#[test]
fn more_arrivals_than_nodes() {
    let full = Script::open(4, 2, 1, 100).stored(0, 10, 5).put(1, 20);
    accept(full.clone());
    refuse(full.clone().put(2, 30), Promise::OnceEach, &[3]);
    let taken = full.take(3).turns(3, 6);
    accept(taken.clone().end(3, 1, &took(10)).put(2, 30));
    refuse(
        taken.put(2, 30).end(3, 1, &took(10)),
        Promise::OnceEach,
        &[4],
    );
}

/// Put 1 and put 2 look the same. Where put 1 has not ended, the answer may be
/// either, and empty is right if it is put 2.
#[test]
fn alike_arrivals_get_the_answers_that_they_need() {
    let second_ended = fresh()
        .put(0, 10)
        .turns(0, 4)
        .stored(1, 10, 5)
        .taken(2, 7, &took(10));
    accept(second_ended.clone().taken(2, 3, "empty"));
    let both_ended = second_ended.end(0, 1, "stored 1");
    refuse(
        both_ended.clone().taken(2, 3, "empty"),
        Promise::EmptyMeansEmpty,
        &[2, 4],
    );
    accept(both_ended.taken(2, 7, &took(10)).taken(2, 3, "empty"));
}

/// Put 1 must be marked when take 4 finds none, and only take 3 had a turn by then.
/// So take 5 has answered put 2, though it ended first.
#[test]
fn alike_arrivals_are_answered_in_the_order_they_are_due() {
    let due = fresh()
        .stored(0, 10, 5)
        .put(1, 10)
        .turns(1, 4)
        .take(2)
        .turns(2, 1)
        .taken(3, 3, "empty")
        .end(1, 1, "stored 2");
    let takes = due.clone().take(3).end(3, 7, &took(10));
    accept(takes.clone());
    accept(takes.end(2, 6, &took(10)));
    // Without the take that had a turn in time.
    let none = fresh()
        .stored(0, 10, 5)
        .put(1, 10)
        .turns(1, 4)
        .taken(3, 3, "empty")
        .end(1, 1, "stored 2")
        .taken(3, 7, &took(10));
    refuse(none, Promise::EmptyMeansEmpty, &[1, 3]);
}

/// The lines do not tell which of two alike arrivals came first.
#[test]
fn alike_arrivals_have_any_order() {
    let alike = fresh().stored(0, 10, 5).stored(0, 10, 5);
    let path_1 = reflection(10, 1, 1);
    let other = alike.clone().stored_arrival(1, path_1, 5);
    accept(other.clone().taken(2, 7, &took(10)));
    refuse(
        other.taken(2, 7, &took_reflection(path_1)),
        Promise::NothingPassedOver,
        &[1, 4],
    );
    let between = fresh()
        .stored(0, 10, 5)
        .stored_arrival(1, path_1, 5)
        .stored(0, 10, 5);
    accept(between.taken(2, 7, &took(10)));
}

/// What was put before an opening is gone.
#[test]
fn histories_are_apart() {
    let first = both().take(3).turns(3, 4);
    let run = |second: &Script| {
        let bytes = [first.bytes(), second.bytes()].concat();
        check(&bytes, &(first.output() + &second.output()))
    };
    assert_eq!(run(&fresh().taken(1, 3, "empty")).unwrap().histories, 2);
    match run(&fresh().taken(1, 7, &took(10))) {
        Err(Violation::Broken(broken)) => {
            let last = first.records().len() + 8;
            assert_eq!(broken[0].promise, Promise::OnceEach);
            assert_eq!((broken[0].breach.at, broken.len()), (last, 1));
        }
        other => panic!("{other:?}"),
    }
}

#[test]
fn lines_that_cannot_be() {
    for (script, why) in [
        (fresh().turns(0, 1), "the worker has no call in progress"),
        (
            fresh().put(0, 10).end(0, 5, "stored 2"),
            "not the answer of this put",
        ),
        (
            fresh().put(0, 10).end(0, 5, &took(10)),
            "not the answer of this put",
        ),
        (
            fresh().take(0).end(0, 5, "stored 1"),
            "not the answer of a take",
        ),
    ] {
        match check(&script.bytes(), &script.output()) {
            Err(Violation::Fault(fault)) => {
                assert_eq!((fault.at, fault.why), (script.records().len() - 1, why));
            }
            other => panic!("{other:?}"),
        }
    }
}

/// The text names the promise, says what breaks it, and shows the calls.
#[test]
fn a_violation_can_be_read() {
    let script = both().taken(1, 7, &took(20)).taken(2, 7, &took(10));
    let text = check(&script.bytes(), &script.output())
        .unwrap_err()
        .to_string();
    let expected = "\
promise 2 (nothing earlier is passed over) is broken at record 21
  put 2 had ended before take 3 started, which answered a later arrival; when it ended, no take had answered or could hold put 2, which take 4 answered
calls:
  2    worker 0   put at 10, order 1          records 8 to 13       stored 2
  3    worker 1   take                        records 14 to 21      took 20 7 1 1864135
  4    worker 2   take                        records 22 to 29      took 10 7 1 1864135
promise 4 (two takes) is broken at record 29
  put 2 had ended before take 3 started, and take 3 before take 4; take 4 answered put 2, and take 3 a later arrival
calls:
  2    worker 0   put at 10, order 1          records 8 to 13       stored 2
  3    worker 1   take                        records 14 to 21      took 20 7 1 1864135
  4    worker 2   take                        records 22 to 29      took 10 7 1 1864135
";
    assert_eq!(text, expected);
}
