//! The dealer by hand: whom it serves, how its runs end, and what refuses it. That what
//! is refused changes nothing is checked inside [`Table`].

mod common;

use common::noted::Noted;
use common::*;
use schedule::script::{put_arrival, reflection, shape, take, turn};
use schedule::{Random, Script};
use second::layout::{field, CURRENT, LAST_ALLOCATED, STARTED};
use second::word::{self, MAX_COUNT};
use second::{deal, deal_run, narrow_deal, new_dealer, Answer, Dealt, Shape, Worker};

/// A form of dealing.
type Form = fn(Shape, &mut [u64], &mut [Worker], usize, u64) -> Dealt;

const FORMS: [Form; 2] = [deal_run, narrow_deal];

/// Workers, and the dealer that serves them.
#[derive(Clone)]
struct Table {
    lent: Lent,
    served: usize,
}

impl Table {
    fn new(lent: Lent) -> Self {
        let served = new_dealer(lent.shape);
        Self { lent, served }
    }

    /// An open pool in which these workers have begun to take.
    fn taking(workers: u32, busy: &[usize]) -> Self {
        let mut table = Self::new(Lent::open(shape(workers, 4, 2, 10)));
        for &worker in busy {
            table.lent.take(worker).unwrap();
        }
        table
    }

    fn run(&mut self, form: Form, turns: u64) -> Dealt {
        let before = self.clone();
        let lent = &mut self.lent;
        let (shape, store, workers) = (lent.shape, &mut lent.0.store, &mut lent.0.workers);
        let dealt = form(shape, store, workers, self.served, turns);
        self.served = dealt.served;
        self.lent.keeps_beyond(&before.lent);
        if dealt.turns == 0 {
            assert_eq!(self.served, before.served);
            assert_eq!(self.lent, before.lent, "dealt no turn, and changed memory");
        }
        if dealt.answer == refused(11) && dealt.turns == 1 {
            assert_eq!(self.lent, before.lent, "11 changed memory");
        }
        dealt
    }

    /// One turn, which is dealt in any form alike: who is served, and the answer.
    fn deal(&mut self) -> (usize, Answer) {
        let mut narrow = self.clone();
        let shape = self.lent.shape;
        let (mut store, mut workers) = (self.lent.store.clone(), self.lent.workers.clone());
        let single = deal(shape, &mut store, &mut workers, self.served);

        let dealt = self.run(deal_run, 1);
        assert_eq!(narrow.run(narrow_deal, 1), dealt);
        assert_eq!(narrow.lent, self.lent);
        assert_eq!(single, dealt);
        assert_eq!((&store, &workers), (&self.lent.store, &self.lent.workers));
        assert_eq!(dealt.turns, 1);
        (dealt.served, dealt.answer)
    }

    /// What refuses the next turn, in both forms, whole first.
    fn refusals(&self) -> [Answer; 2] {
        FORMS.map(|form| {
            let dealt = self.clone().run(form, 1);
            assert_eq!(dealt.turns, 0);
            assert_eq!(self.clone().run(form, u64::MAX), dealt);
            dealt.answer
        })
    }

    /// Who is served by the next turns, all answered `on`.
    fn served(&mut self, turns: usize) -> Vec<usize> {
        let dealt = (0..turns).map(|_| self.deal());
        dealt
            .map(|(worker, answer)| {
                assert_eq!(answer, ON);
                worker
            })
            .collect()
    }
}

fn dealt(served: usize, turns: u64, answer: Answer) -> Dealt {
    Dealt {
        served,
        turns,
        answer,
    }
}

// Whom it serves.

#[test]
fn a_new_dealer_remembers_the_last_worker() {
    for (workers, last) in [(1, 0), (2, 1), (64, 63), (0, 0), (u32::MAX, 4_294_967_294)] {
        assert_eq!(new_dealer(shape(workers, 4, 2, 10)), last);
    }
}

#[test]
fn the_first_worker_is_served_first() {
    let mut table = Table::taking(3, &[0, 1, 2]);
    assert_eq!(table.served(4), [0, 1, 2, 0]);
}

#[test]
fn idle_workers_are_passed_over() {
    let mut table = Table::taking(6, &[1, 2, 4]);
    assert_eq!(table.served(5), [1, 2, 4, 1, 2]);
    // One begins in front of the next, one behind it.
    table.lent.take(3).unwrap();
    table.lent.take(0).unwrap();
    assert_eq!(table.served(5), [3, 4, 0, 1, 2]);
}

#[test]
fn the_one_served_last_is_the_last_candidate() {
    let mut table = Table::taking(3, &[1]);
    assert_eq!(table.served(3), [1, 1, 1]);
    table.lent.take(0).unwrap();
    assert_eq!(table.served(1), [0]);
    table.served = 1;
    table.lent.take(2).unwrap();
    assert_eq!(table.served(2), [2, 0]);
}

/// A fresh take has 5 turns.
#[test]
fn one_worker_is_served_each_time() {
    let mut table = Table::taking(1, &[0]);
    assert_eq!(table.served(4), [0; 4]);
    assert_eq!(table.deal(), (0, EMPTY));
    assert_eq!(table.refusals(), [refused(16); 2]);
}

/// A worker whose record lies beyond the shape's is not looked for.
#[test]
fn records_beyond_have_no_turn() {
    let table = Table::new(Lent::open(shape(2, 4, 2, 10)));
    assert!(table.lent.workers[2].is_busy());
    assert_eq!(table.refusals(), [refused(16); 2]);
}

// Runs.

/// In bucket 1 a put has 4 turns, in bucket 0 it has 5.
#[test]
fn a_run_ends_with_a_call() {
    for form in FORMS {
        let mut table = Table::new(Lent::open(shape(2, 4, 2, 10)));
        table.lent.put(0, 5).unwrap();
        table.lent.put(1, 15).unwrap();
        assert_eq!(table.run(form, 3), dealt(0, 3, ON));
        assert_eq!(table.run(form, u64::MAX), dealt(1, 5, stored(2)));
        assert_eq!(table.run(form, 1), dealt(0, 1, stored(1)));
        assert_eq!(table.run(form, u64::MAX), dealt(0, 0, refused(16)));

        table.lent.take(1).unwrap();
        assert_eq!(table.run(form, 6), dealt(1, 6, ON));
        assert_eq!(table.run(form, 6), dealt(1, 1, took(5)));
    }
}

/// The call may end in the last turn of a run, and in the one before.
#[test]
fn a_run_at_its_limit() {
    for form in FORMS {
        for (turns, expected) in [
            (4, dealt(0, 4, ON)),
            (5, dealt(0, 5, EMPTY)),
            (6, dealt(0, 5, EMPTY)),
        ] {
            assert_eq!(Table::taking(1, &[0]).run(form, turns), expected);
        }
    }
}

#[test]
fn no_turns_whatever_there_is() {
    for form in FORMS {
        let mut table = Table::taking(2, &[0]);
        assert_eq!(table.run(form, 0), dealt(1, 0, ON));
        table.served = usize::MAX;
        table.lent.store.fill(GARBAGE);
        assert_eq!(table.run(form, 0), dealt(usize::MAX, 0, ON));
        table.lent.store.clear();
        table.lent.workers.clear();
        assert_eq!(table.run(form, 0), dealt(usize::MAX, 0, ON));
        table.lent.shape = shape(0, 0, 0, 0);
        assert_eq!(table.run(form, 0), dealt(usize::MAX, 0, ON));
    }
}

/// On any memory in range, and with damage, in either form.
#[test]
fn a_run_is_its_turns_one_by_one() {
    let mut random = Random::new(4);
    for round in 0..20_000 {
        let mut memory = any_in_range(&mut random);
        if round % 4 == 0 {
            let place = random.below(memory.store.len() as u32) as usize;
            memory.store[place] ^= 1 << random.below(64);
        }
        let mut table = Table::new(lend(&memory));
        table.served = random.below(memory.shape.workers + 1) as usize;
        for form in FORMS {
            let (mut run, mut single) = (table.clone(), table.clone());
            let most = random.below(12).into();
            let mut expected = dealt(table.served, 0, ON);
            while expected.turns < most && expected.answer == ON {
                let one = single.run(form, 1);
                expected = dealt(one.served, expected.turns + one.turns, one.answer);
                if one.turns == 0 {
                    break;
                }
            }
            assert_eq!(run.run(form, most), expected);
            assert_eq!((run.lent, run.served), (single.lent, single.served));
        }
    }
}

// Refusals.

/// 16 is behind all the others, and each hides those behind it.
#[test]
fn refusals_in_their_order() {
    let mut table = Table::new(Lent::open(shape(2, 4, 2, 10)));
    assert_eq!(table.refusals(), [refused(16); 2]);
    for outside in [2, 3, 1 << 32, usize::MAX] {
        table.served = outside;
        assert_eq!(table.refusals(), [refused(4); 2]);
    }
    let sound = table.lent.clone();
    for damaged in [CURRENT, STARTED, LAST_ALLOCATED] {
        table.lent.store[damaged] = u64::MAX;
        assert_eq!(table.refusals(), [refused(3); 2]);
        table.lent = sound.clone();
    }
    table.lent.store.fill(u64::MAX);
    table.lent.store.truncate(sound.shape.store_words() - 1);
    assert_eq!(table.refusals(), [refused(2); 2]);
    table.lent = sound.clone();
    table.lent.workers.truncate(1);
    assert_eq!(table.refusals(), [refused(2); 2]);
    table.lent.shape.width = 0;
    assert_eq!(table.refusals(), [refused(1); 2]);
}

/// A turn of a worker outside the shape is not dealt, even if others wait for theirs.
#[test]
fn a_remembered_worker_outside_the_shape() {
    let mut table = Table::taking(2, &[0, 1]);
    table.served = 2;
    assert_eq!(table.refusals(), [refused(4); 2]);
    table.served = 1;
    assert_eq!(table.served(2), [0, 1]);
}

/// With no epoch left the put stays at stage 7. Its turns are dealt, and refused; the
/// take beside it goes on, and ends.
#[test]
fn a_turn_refused_by_11_is_dealt() {
    let mut table = Table::new(Lent::open(shape(2, 4, 2, 10)));
    table.lent.store[CURRENT] = word::current(0, MAX_COUNT);
    table.lent.put(0, 5).unwrap();
    table.lent.turns_to(0, 7);
    table.lent.take(1).unwrap();
    for _ in 0..6 {
        assert_eq!(table.deal(), (0, refused(11)));
        assert_eq!(table.deal(), (1, ON));
    }
    assert_eq!(table.deal(), (0, refused(11)));
    assert_eq!(table.deal(), (1, took(5)));
    for _ in 0..3 {
        assert_eq!(table.deal(), (0, refused(11)));
    }
}

/// Runs end at 11, and the next one begins behind it.
#[test]
fn a_run_ends_by_11() {
    for form in FORMS {
        let mut table = Table::new(Lent::open(shape(3, 4, 2, 10)));
        table.lent.store[CURRENT] = word::current(0, MAX_COUNT);
        table.lent.put(1, 5).unwrap();
        table.lent.turns_to(1, 7);
        for worker in [0, 2] {
            table.lent.take(worker).unwrap();
        }
        assert_eq!(table.run(form, u64::MAX), dealt(1, 2, refused(11)));
        assert_eq!(table.lent.stage(1), 7);
        assert_eq!(table.run(form, u64::MAX), dealt(1, 3, refused(11)));
        assert_eq!(table.run(form, 2), dealt(0, 2, ON));
        assert_eq!(table.run(form, 1), dealt(1, 1, refused(11)));
    }
}

/// Unlinked by stage 3, a node that no put has had is out of range with its distance 0:
/// in the whole form the run ends there.
#[test]
fn a_turn_may_put_the_memory_out_of_range() {
    let unlinking = || {
        let mut lent = Lent::open(shape(2, 4, 2, 10));
        lent.put(1, 15).unwrap();
        *lent.head(0) = word::link(2);
        *lent.node_word(2, field::LINK) = word::marked(word::link(4));
        lent.workers[0] = Worker {
            right: 2,
            link_seen: word::marked(word::link(4)),
            ..record_at(3)
        };
        Table::new(lent)
    };
    assert_eq!(unlinking().run(deal_run, u64::MAX), dealt(0, 1, refused(3)));
    let mut narrow = unlinking();
    assert_eq!(narrow.run(narrow_deal, 3), dealt(0, 3, ON));
    assert_eq!(narrow.run(deal_run, u64::MAX), dealt(0, 0, refused(3)));
}

// What the narrow form looks at.

/// Of a worker that is passed over, or served later, only the stage is read.
#[test]
fn only_the_record_of_the_one_to_be_served_is_looked_at() {
    let idle = Worker {
        stage: 0,
        ..GARBAGE_RECORD
    };
    let mut table = Table::taking(3, &[1]);
    table.lent.workers[0] = idle;
    table.lent.workers[2] = GARBAGE_RECORD;
    assert_eq!(table.clone().run(deal_run, 1).answer, refused(3));
    assert_eq!(table.run(narrow_deal, u64::MAX), dealt(1, 1, refused(3)));
    // It does not get past a worker in progress that is out of range.
    assert_eq!(table.run(narrow_deal, u64::MAX), dealt(1, 0, refused(3)));
    table.lent.workers[2] = idle;
    assert_eq!(table.run(narrow_deal, u64::MAX), dealt(1, 4, EMPTY));
    // Nobody is to be served: 16, and 4, whatever the records hold.
    assert_eq!(table.run(narrow_deal, 1), dealt(1, 0, refused(16)));
    table.lent.workers[2] = GARBAGE_RECORD;
    table.served = 3;
    assert_eq!(table.run(narrow_deal, 1), dealt(3, 0, refused(4)));
}

/// Heads and nodes may hold anything: a head that leads nowhere is read, and then the
/// record is out of range.
#[test]
fn the_turn_is_done_with_the_words_found() {
    let mut table = Table::taking(2, &[0]);
    *table.lent.head(0) = word::link(1 << 40);
    assert_eq!(table.clone().run(deal_run, 1).answer, refused(3));
    assert_eq!(table.run(narrow_deal, u64::MAX), dealt(0, 2, refused(3)));
    assert_eq!(
        (table.lent.stage(0), table.lent.workers[0].right),
        (10, 1 << 40)
    );
}

// Waiting.

/// Every worker in progress is served within as many turns as there are workers, from
/// any moment on and whatever begins; and one that just was, with all others in
/// progress, waits that long.
#[test]
fn nobody_waits_for_more_turns_than_workers() {
    for workers in [1, 2, 3, 16, 64] {
        let mut random = Random::new(workers.into());
        let mut table = Table::new(Lent::open(shape(workers, 70, 2, 10)));
        let mut waits = vec![0; workers as usize];
        let mut longest = 0;
        for _ in 0..3_000 {
            for worker in 0..workers as usize {
                if !table.lent.workers[worker].is_busy() && random.one_in(2) {
                    table.lent.take(worker).unwrap();
                    waits[worker] = 0;
                }
            }
            let turn = table.run(narrow_deal, 1);
            if turn.turns == 0 {
                assert_eq!(turn.answer, refused(16));
                continue;
            }
            for (worker, wait) in waits.iter_mut().enumerate() {
                *wait += 1;
                if worker == turn.served {
                    longest = longest.max(*wait);
                    *wait = 0;
                } else if table.lent.workers[worker].is_busy() {
                    assert!(*wait < workers, "worker {worker} of {workers}");
                }
            }
        }
        assert_eq!(longest, workers);
    }
}

/// A dealt turn is a turn of its worker: so the calls have an order in which a plain queue
/// gives the same answers.
#[test]
fn dealt_calls_have_an_order() {
    for seed in 0..300 {
        let mut random = Random::new(seed);
        let mut noted = Noted::play(&Script::open(3, 4, 2, 10));
        let mut served = new_dealer(noted.lent.shape);
        for _ in 0..60 {
            for worker in 0..3 {
                if noted.lent.stage(worker.into()) == 0 && random.one_in(3) {
                    let any = random.below(30);
                    let time = random.choose(&[5, 15, any]);
                    let put = put_arrival(worker, reflection(time, random.below(2), 7));
                    // With no free node the start is refused.
                    let _ = noted.apply(random.choose(&[put, take(worker)]));
                }
            }
            let mut table = Table {
                lent: noted.lent.clone(),
                served,
            };
            let form = random.choose(&FORMS);
            let dealt = table.run(form, 1);
            if dealt.turns > 0 {
                served = dealt.served;
                assert_eq!(noted.apply(turn(served as u8)), dealt.answer);
                assert_eq!(noted.lent, table.lent);
            }
        }
        assert!(noted.is_a_queue(), "seed {seed}");
    }
}
