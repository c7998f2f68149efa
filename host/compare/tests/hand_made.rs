//! Histories made by hand: which of them have an order of a plain queue.

use compare::linearizability::{check, Checked, Violation};
use schedule::script::{put_arrival, reflection, take, took, took_reflection, turn};
use schedule::{by_hand, orders, Script};
use second::Arrival;

fn verdict(script: &Script) -> Result<Checked, Violation> {
    check(&script.bytes(), &script.output())
}

#[track_caller]
fn accept(script: Script) {
    if let Err(violation) = verdict(&script) {
        panic!("{violation}");
    }
}

/// Refused, and only with the last record.
#[track_caller]
fn refuse_at_the_end(script: Script) {
    let records = script.records().len();
    match verdict(&script) {
        Err(Violation::NoOrder { opening, last, .. }) => {
            assert_eq!((opening, last), (0, records - 1));
        }
        other => panic!("{other:?}"),
    }
}

#[track_caller]
fn fault(script: &Script, why: &str) {
    match verdict(script) {
        Err(Violation::Fault(fault)) => {
            assert_eq!((fault.at, fault.why), (script.records().len() - 1, why));
        }
        other => panic!("{other:?}"),
    }
}

/// One bucket, so that any times go.
fn fresh() -> Script {
    Script::open(4, 8, 1, 100)
}

#[test]
fn a_take_set_into_the_past() {
    let script = orders::take_set_into_the_past().taken(0, 3, "empty");
    assert_eq!(schedule::lines(&script.bytes()[..]), script.output());
    let checked = verdict(&script).unwrap();
    assert_eq!((checked.histories, checked.calls), (1, 5));
    // The same answers without the overlap.
    refuse_at_the_end(
        Script::open(2, 4, 1, 10)
            .stored(0, 7, 5)
            .stored(0, 3, 6)
            .taken(1, 8, &took(7)),
    );
}

#[test]
fn the_files_written_by_hand() {
    let (input, output) = by_hand::WORKED_EXAMPLE;
    assert!(check(input, output).is_ok());
    for (_, script) in by_hand::cases() {
        accept(script);
    }
    for (_, script) in orders::cases() {
        accept(script);
    }
}

#[test]
fn an_arrival_taken_twice() {
    let once = fresh().stored(0, 10, 5).taken(0, 7, &took(10));
    accept(once.clone());
    refuse_at_the_end(once.taken(0, 7, &took(10)));
    let by_two = fresh().stored(0, 10, 5).take(1).take(2);
    refuse_at_the_end(by_two.end(1, 7, &took(10)).end(2, 7, &took(10)));
}

#[test]
fn equal_arrivals_are_taken_as_often_as_they_were_put() {
    let twice = fresh()
        .stored(0, 10, 5)
        .stored(0, 10, 6)
        .taken(0, 8, &took(10))
        .taken(0, 7, &took(10));
    accept(twice.clone());
    refuse_at_the_end(twice.taken(0, 7, &took(10)));
}

#[test]
fn an_arrival_lost() {
    refuse_at_the_end(fresh().stored(0, 10, 5).taken(0, 3, "empty"));
    // Another one comes out, but 10 never does.
    refuse_at_the_end(
        fresh()
            .stored(0, 10, 5)
            .take(1)
            .stored(0, 20, 6)
            .end(1, 5, &took(10))
            .taken(0, 7, &took(20))
            .stored(2, 5, 5)
            .taken(0, 3, "empty"),
    );
}

#[test]
fn an_arrival_never_put() {
    refuse_at_the_end(fresh().stored(0, 10, 5).taken(0, 7, &took(11)));
    for answer in ["took 10 8 1 1864135", "took 10 7 2 1864135"] {
        refuse_at_the_end(fresh().stored(0, 10, 5).taken(0, 7, answer));
    }
}

#[test]
fn taken_out_of_order() {
    let both = fresh().stored(0, 10, 5).stored(0, 20, 6);
    refuse_at_the_end(both.clone().taken(1, 7, &took(20)));
    // Unless another call may have taken 10.
    accept(both.clone().take(2).taken(1, 7, &took(20)));
    refuse_at_the_end(both.take(2).taken(1, 7, &took(20)).end(2, 7, "empty"));
}

/// The first of two comes out first, whether its put begins first or last, and ends first
/// or last.
#[track_caller]
fn first_in_any_case(first: Arrival, second: Arrival) {
    for [one, other] in [[first, second], [second, first]] {
        let apart = fresh()
            .stored_arrival(0, one, 5)
            .stored_arrival(0, other, 6);
        let crossed = fresh()
            .begin(put_arrival(0, one))
            .stored_arrival(1, other, 5)
            .end(0, 6, "stored 1");
        for both in [apart, crossed] {
            accept(both.clone().taken(1, 8, &took_reflection(first)));
            refuse_at_the_end(both.taken(1, 8, &took_reflection(second)));
        }
    }
}

/// Of equal times the lower reflection order comes first.
#[test]
fn equal_times_by_order() {
    first_in_any_case(reflection(10, 0, 7), reflection(10, 1, 7));
    first_in_any_case(reflection(10, 62, 1), reflection(10, 63, 0));
}

/// A lower order does not pass an earlier time.
#[test]
fn times_before_orders() {
    first_in_any_case(reflection(10, 63, 7), reflection(11, 0, 7));
}

/// Of equal times and orders the lower ticket comes first.
#[test]
fn equal_times_and_orders_by_ticket() {
    let [first, second] = [2, 1].map(|path| reflection(10, 1, path));
    let both = fresh()
        .stored_arrival(0, first, 5)
        .stored_arrival(0, second, 6);
    accept(both.clone().taken(1, 8, &took_reflection(first)));
    refuse_at_the_end(both.taken(1, 8, &took_reflection(second)));
    // The ticket is of the start, even if the other put ended first.
    let crossed = fresh()
        .begin(put_arrival(0, first))
        .stored_arrival(1, second, 5)
        .end(0, 5, "stored 1");
    accept(crossed.clone().taken(1, 8, &took_reflection(first)));
    refuse_at_the_end(crossed.taken(1, 8, &took_reflection(second)));
}

/// Three of one time, all put when the takes begin: only one way is right.
#[test]
fn orders_and_tickets_in_one_list() {
    let [a, b, c] = [(1, 1), (0, 2), (1, 3)].map(|(order, path)| reflection(10, order, path));
    let taken = |arrivals: [Arrival; 3]| {
        let puts = fresh()
            .stored_arrival(0, a, 5)
            .stored_arrival(0, b, 6)
            .stored_arrival(0, c, 7);
        let take = |script: Script, arrival| script.taken(1, 8, &took_reflection(arrival));
        arrivals.into_iter().fold(puts, take)
    };
    accept(taken([b, a, c]));
    for other in [[a, b, c], [a, c, b], [b, c, a], [c, a, b], [c, b, a]] {
        assert!(verdict(&taken(other)).is_err());
    }
}

/// A queue would give these answers, but not in the order of time.
#[test]
fn against_the_order_of_time() {
    // Taken before its put began.
    refuse_at_the_end(fresh().taken(0, 7, &took(10)));
    // Empty after the put, and then the arrival.
    let empty_after = fresh().stored(0, 10, 5).taken(1, 3, "empty");
    refuse_at_the_end(empty_after);
    accept(
        fresh()
            .take(1)
            .stored(0, 10, 5)
            .end(1, 3, "empty")
            .taken(1, 7, &took(10)),
    );
    // The put of 10 ended before the put of 5 began, and the takes cross.
    refuse_at_the_end(
        fresh()
            .stored(0, 10, 5)
            .stored(0, 5, 5)
            .taken(1, 8, &took(10)),
    );
}

#[test]
fn unfinished_puts_count_or_not() {
    let begun = fresh().put(0, 10).turns(0, 4);
    accept(begun.clone().taken(1, 7, &took(10)));
    accept(begun.clone().taken(1, 3, "empty"));
    accept(begun.clone().taken(1, 3, "empty").taken(1, 7, &took(10)));
    let taken = begun.taken(1, 7, &took(10)).taken(1, 3, "empty");
    accept(taken.clone());
    refuse_at_the_end(taken.taken(1, 7, &took(10)));
}

#[test]
fn unfinished_takes_count_or_not() {
    let three = fresh()
        .stored(0, 10, 5)
        .stored(0, 20, 6)
        .stored(0, 30, 7)
        .take(1)
        .turns(1, 4);
    accept(three.clone().taken(0, 8, &took(10)));
    accept(three.clone().taken(0, 8, &took(20)));
    refuse_at_the_end(three.clone().taken(0, 8, &took(30)));
    accept(three.clone().take(2).taken(0, 8, &took(30)));
    // It cannot have come before it began.
    refuse_at_the_end(
        fresh()
            .stored(0, 10, 5)
            .stored(0, 20, 6)
            .taken(0, 8, &took(20)),
    );
}

#[test]
fn wrong_energy() {
    for (distance, energy) in by_hand::ENERGIES {
        accept(by_hand::energy_at(distance, energy));
        refuse_at_the_end(by_hand::energy_at(distance, energy - 1));
        refuse_at_the_end(by_hand::energy_at(distance, energy + 1));
    }
}

#[test]
fn wrong_ticket_after_stored() {
    refuse_at_the_end(fresh().put(0, 10).end(0, 5, "stored 2"));
    refuse_at_the_end(fresh().put(0, 10).put(1, 20).end(0, 5, "stored 2"));
}

#[test]
fn an_answer_of_the_other_kind() {
    refuse_at_the_end(fresh().put(0, 10).end(0, 5, &took(10)));
    refuse_at_the_end(fresh().put(0, 10).end(0, 5, "empty"));
    refuse_at_the_end(fresh().taken(0, 5, "stored 1"));
}

/// What an engine prints that walks past 15 and takes 20.
#[test]
fn passing_over_a_node_of_a_higher_epoch() {
    refuse_at_the_end(orders::paused_before_15().end(0, 6, &took(20)));
    // Worse still with what it prints then.
    let wrong = orders::paused_before_15()
        .end(0, 6, &took(20))
        .taken(1, 7, &took(15));
    assert!(verdict(&wrong).is_err());
}

#[test]
fn freeing_a_node_too_early() {
    refuse_at_the_end(
        orders::stood_on_by_a_put()
            .stored(2, 30, 5)
            .end(1, 3, "stored 2")
            .taken(0, 8, &took(30)),
    );
    // 10 is overwritten, so that its taker answers 30.
    let overwritten = orders::marked_and_paused().stored(1, 30, 6);
    refuse_at_the_end(overwritten.end(0, 3, &took(30)));
}

#[test]
fn answering_stored_at_the_link() {
    let at_the_link = Script::open(2, 4, 2, 10)
        .taken(0, 5, "empty")
        .stored(1, 5, 3);
    refuse_at_the_end(at_the_link.taken(0, 3, "empty"));
}

#[test]
fn a_stale_advance() {
    refuse_at_the_end(
        orders::stale_advance()
            .turns(0, 1)
            .end(0, 2, "empty")
            .taken(1, 3, "empty"),
    );
}

/// An opening begins anew; what was put before it is gone.
#[test]
fn histories_are_apart() {
    let first = fresh().stored(0, 10, 5).put(1, 20);
    let run = |second: &Script| {
        let bytes = [first.bytes(), second.bytes()].concat();
        check(&bytes, &(first.output() + &second.output()))
    };
    let checked = run(&fresh().taken(1, 3, "empty")).unwrap();
    assert_eq!((checked.histories, checked.calls), (2, 3));
    match run(&fresh().taken(1, 7, &took(10))) {
        Err(Violation::NoOrder { opening, last, .. }) => assert_eq!((opening, last), (8, 16)),
        other => panic!("{other:?}"),
    }
    // A turn of a call from before the opening.
    match run(&fresh().turns(1, 1)) {
        Err(Violation::Fault(fault)) => assert_eq!(fault.at, 9),
        other => panic!("{other:?}"),
    }
}

#[test]
fn lines_that_cannot_be() {
    let (take, turn) = (take(0), turn(0));
    let not_for_it = "this line is not for this record";
    for (script, why) in [
        (fresh().and(take, "begun 2"), "not the next ticket"),
        (fresh().and(take, "begun 01"), "no such line"),
        (fresh().and(take, "begun"), "no such line"),
        (fresh().and(take, "begun 1 "), "no such line"),
        (fresh().and(take, "begin 1"), "no such line"),
        (fresh().and(take, "on"), not_for_it),
        (fresh().and(turn, "open"), not_for_it),
        (
            fresh().take(0).and(take, "begun 2"),
            "the worker has a call in progress",
        ),
        (fresh().turns(0, 1), "the worker has no call in progress"),
        (
            fresh().end(0, 1, "empty"),
            "the worker has no call in progress",
        ),
        (Script::default().and(take, "begun 1"), "nothing is open"),
    ] {
        fault(&script, why);
    }
    let script = fresh().take(0).turns(0, 1);
    let output = script.output();
    for (lines, at, why) in [
        ("open\nbegun 1\n".to_string(), 2, "a line is missing"),
        (output + "on\n", 3, "a line too many"),
    ] {
        match check(&script.bytes(), &lines) {
            Err(Violation::Fault(fault)) => assert_eq!((fault.at, fault.why), (at, why)),
            other => panic!("{other:?}"),
        }
    }
}

/// The text of a violation shows calls, records and lines, up to the record
/// with which it began.
#[test]
fn a_violation_can_be_read() {
    let script = fresh()
        .stored(0, 10, 5)
        .take(1)
        .taken(2, 7, &took(10))
        .end(1, 7, &took(10))
        .stored(3, 40, 5);
    let text = verdict(&script).unwrap_err().to_string();
    let expected = "\
no order of a plain queue gives the answers of records 1 to 23
(without the last of them there is one)
calls:
  1    worker 0   put at 10, order 1          records 2 to 7        stored 1
  2    worker 1   take                        records 8 to 23       took 10 7 1 1864135
  3    worker 2   take                        records 9 to 16       took 10 7 1 1864135
records:
  1             OP 4 8 1 100              open
  2             PU 0 10 7 1 3             begun 1
  3 to 6        TU 0                      on
  7             TU 0                      stored 1
  8             TA 1                      begun 2
  9             TA 2                      begun 3
  10 to 15      TU 2                      on
  16            TU 2                      took 10 7 1 1864135
  17 to 22      TU 1                      on
  23            TU 1                      took 10 7 1 1864135
";
    assert_eq!(text, expected);
}
