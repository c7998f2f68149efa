//! Watches a pool from one opening on, and checks after every record what
//! the rules say of it.

use std::collections::{BTreeMap, BTreeSet};

use order::{End, History, Kind};
use schedule::to_the_end;
use second::layout::{field, head_at, node_at, NODE_WORDS, STARTED};
use second::{
    in_range, kind, stage, word, Answer, Arrival, Program, Reclamation, Record, Response, Worker,
};

/// The calls since the opening.
#[derive(Clone, Default)]
pub struct Observer {
    now: usize,
    /// Every put that began, by ticket.
    puts: BTreeMap<u64, Arrival>,
    stored: BTreeSet<u64>,
    marked: BTreeSet<u64>,
    taken: BTreeSet<u64>,
    /// Of an arrival a take shows its ticket.
    history: History<u64>,
}

impl Observer {
    /// Checks one record that is no accepted opening.
    pub fn watch(&mut self, before: &Before, program: &Program, record: Record, answer: Answer) {
        self.now += 1;
        match (record, answer) {
            (Record::EnqueueStart { worker, arrival }, Ok(Response::Begun(ticket))) => {
                let Arrival { time, order, .. } = arrival;
                let shown = ticket;
                let kind = Kind::Put { time, order, shown };
                self.begin(worker.into(), program, ticket, kind);
                self.puts.insert(ticket, arrival);
                let own = program.workers()[usize::from(worker)].own;
                assert!(!before.stood_on.contains(&own), "node {own} is stood on");
            }
            (Record::DequeueStart { worker }, Ok(Response::Begun(ticket))) => {
                self.begin(worker.into(), program, ticket, Kind::Take);
            }
            (Record::Step { worker }, Ok(response)) => {
                self.step(before, program, worker.into(), response);
            }
            (_, Err(refusal)) => assert!(![3, 7, 8, 11].contains(&refusal.number())),
            other => panic!("{other:?}"),
        }
        self.check(program);
    }

    fn begin(&mut self, worker: usize, program: &Program, ticket: u64, kind: Kind<u64>) {
        assert_eq!(program.store()[STARTED], ticket);
        assert_eq!(program.workers()[worker].ticket, ticket);
        self.history.begin(worker, ticket, kind, self.now);
    }

    fn step(&mut self, before: &Before, program: &Program, worker: usize, response: Response) {
        let record = program.workers()[worker];
        let ticket = node(program, record.own)[field::TICKET];
        if before.workers[worker].stage == stage::DEQUEUE_MARK && record.stage == stage::SEARCH_HEAD
        {
            assert!(self.marked.insert(ticket), "{ticket} is marked twice");
        }
        match response {
            Response::On => {}
            Response::Stored(stored) => {
                assert_eq!((stored, stored), (record.ticket, ticket));
                assert!(self.stored.insert(stored));
                self.end(worker, order::Answer::Stored(stored));
            }
            Response::Took {
                time,
                path,
                order,
                distance,
                energy,
            } => {
                assert!(self.marked.contains(&ticket));
                assert!(self.taken.insert(ticket), "{ticket} is taken twice");
                let put = self.puts[&ticket];
                let fields = (put.time, put.path, put.order, put.distance);
                let (time, path) = (time as u32, path as u32);
                assert_eq!((time, path, order as u32, distance as u32), fields);
                assert_eq!(u64::from(energy), (1 << 24) / (distance * distance));
                self.end(worker, order::Answer::Took(ticket));
            }
            Response::Empty => self.end(worker, order::Answer::Empty),
            other => panic!("{other:?}"),
        }
    }

    fn end(&mut self, worker: usize, answer: order::Answer<u64>) {
        self.history.end(worker, self.now, answer);
    }

    /// What holds of store and table at any moment.
    fn check(&self, program: &Program) {
        let shape = program.shape();
        assert!(in_range(shape, program.store(), program.workers()));
        let lists = Lists::read(program);
        self.check_lists(program, &lists);
        self.check_sum(program, &lists);
        check_reclamation(program, &lists);
    }

    /// Unmarked in a list are exactly the arrivals linked and not yet marked.
    fn check_lists(&self, program: &Program, lists: &Lists) {
        let mut expected: BTreeSet<u64> = self.stored.clone();
        for worker in busy(program) {
            if matches!(worker.stage, stage::ENQUEUE_COMPARE | stage::ENQUEUE_LOWER) {
                expected.insert(worker.ticket);
            }
        }
        let expected: Vec<u64> = expected.difference(&self.marked).copied().collect();
        let mut unmarked = lists.unmarked.clone();
        unmarked.sort_unstable();
        assert_eq!(unmarked, expected);
    }

    /// The sum at the end of the section on the plain queue.
    fn check_sum(&self, program: &Program, lists: &Lists) {
        let at = |of: u64, stages: std::ops::RangeInclusive<u64>| {
            let calls = busy(program).filter(|w| w.kind == of && stages.contains(&w.stage));
            calls.count()
        };
        let put = self.stored.len() + at(kind::ENQUEUE, 6..=7);
        let taken = self.taken.len() + at(kind::DEQUEUE, 1..=3);
        assert_eq!(put, taken + lists.unmarked.len());
    }

    /// Ends all calls in progress, takes until empty, and checks that each stored
    /// arrival has been taken once, in some order of a plain queue.
    pub fn drain(mut self, mut program: Program) {
        let workers = program.shape().workers as u8;
        for worker in 0..workers {
            self.finish(&mut program, worker);
        }
        let mut last = None;
        loop {
            self.apply(&mut program, Record::DequeueStart { worker: 0 });
            self.finish(&mut program, 0);
            let ticket = match self.history.calls().last().unwrap().end {
                Some(End {
                    answer: order::Answer::Took(ticket),
                    ..
                }) => ticket,
                _ => break,
            };
            let Arrival { time, order, .. } = self.puts[&ticket];
            let key = Some((time, order, ticket));
            assert!(last < key, "drained out of order");
            last = key;
        }
        assert_eq!(self.stored, self.taken);
        assert_eq!(self.stored, self.puts.keys().copied().collect());
        if workers <= 6 {
            assert!(self.history.has_order(), "no order of a plain queue");
        }
    }

    fn finish(&mut self, program: &mut Program, worker: u8) {
        if program.workers()[usize::from(worker)].is_busy() {
            let step = Record::Step { worker };
            let most = 20 * (program.shape().nodes + program.shape().buckets + 10);
            to_the_end(most as usize, Response::On, || self.apply(program, step));
            assert!(!program.workers()[usize::from(worker)].is_busy());
        }
    }

    fn apply(&mut self, program: &mut Program, record: Record) -> Response {
        let before = Before::new(program);
        let response = program.apply(record).expect("nothing is refused");
        self.watch(&before, program, record, Ok(response));
        response
    }
}

/// What is compared with after a record.
pub struct Before {
    workers: Vec<Worker>,
    stood_on: BTreeSet<u64>,
}

impl Before {
    pub fn new(program: &Program) -> Self {
        Self {
            workers: program.workers().to_vec(),
            stood_on: stood_on(program),
        }
    }
}

fn busy(program: &Program) -> impl Iterator<Item = &Worker> {
    let workers = program.shape().workers as usize;
    let workers = program.workers()[..workers].iter();
    workers.filter(|worker| worker.is_busy())
}

fn node(program: &Program, node: u64) -> &[u64] {
    let first = node_at(program.shape().buckets as usize, node as usize);
    &program.store()[first..first + NODE_WORDS]
}

/// The nodes that calls in progress stand on.
fn stood_on(program: &Program) -> BTreeSet<u64> {
    let shape = program.shape();
    let mut nodes = BTreeSet::new();
    for worker in busy(program) {
        if (1..=7).contains(&worker.stage) {
            nodes.insert(worker.own);
        }
        if (2..=5).contains(&worker.stage) && worker.left >= shape.buckets.into() {
            nodes.insert(worker.left - u64::from(shape.buckets));
        }
        if matches!(worker.stage, 2..=5 | 10 | 11) && worker.right != u64::from(shape.nodes) {
            nodes.insert(worker.right);
        }
    }
    nodes
}

/// Every node is free, resting or in use; a node stood on is not free; in use are
/// the linked nodes and those of puts not linked yet.
fn check_reclamation(program: &Program, lists: &Lists) {
    let nodes = u64::from(program.shape().nodes);
    let state = |of| Reclamation::from_word(node(program, of)[field::RECLAMATION]);
    let rests = |since| busy(program).any(|worker| worker.ticket <= since);
    let is_free = |of| match state(of) {
        Reclamation::Unused => true,
        Reclamation::Live => false,
        Reclamation::Retired(since) => !rests(since),
    };
    let free = (0..nodes).filter(|&of| is_free(of)).count();
    let resting = (0..nodes)
        .filter(|&of| matches!(state(of), Reclamation::Retired(since) if rests(since)))
        .count();
    let in_use = (0..nodes)
        .filter(|&of| state(of) == Reclamation::Live)
        .count();
    assert_eq!(free + resting + in_use, nodes as usize);

    let private = busy(program).filter(|w| w.kind == kind::ENQUEUE && w.stage <= 5);
    assert_eq!(in_use, lists.linked + private.count());
    assert!(stood_on(program).into_iter().all(|of| !is_free(of)));
}

/// The lists of all buckets.
struct Lists {
    linked: usize,
    /// The tickets of the unmarked nodes.
    unmarked: Vec<u64>,
}

impl Lists {
    /// Walks every list; keys must rise and times fit their bucket: it has `width`
    /// samples, and the last one all that come later.
    fn read(program: &Program) -> Self {
        let shape = program.shape();
        let mut lists = Self {
            linked: 0,
            unmarked: Vec::new(),
        };
        for bucket in 0..shape.buckets {
            let first = u64::from(bucket * shape.width);
            let behind = match bucket + 1 == shape.buckets {
                true => 1 << 32,
                false => first + u64::from(shape.width),
            };
            let mut next = word::successor(program.store()[head_at(bucket as usize)]);
            let mut last = None;
            while next != u64::from(shape.nodes) {
                let words = node(program, next);
                let [time, order, ticket] =
                    [field::TIME, field::ORDER, field::TICKET].map(|word| words[word]);
                let key = (time, order, ticket);
                assert!(last < Some(key), "a list out of order");
                assert!((first..behind).contains(&time), "{key:?} in {bucket}");
                lists.linked += 1;
                if !word::is_marked(words[field::LINK]) {
                    lists.unmarked.push(ticket);
                }
                last = Some(key);
                next = word::successor(words[field::LINK]);
            }
        }
        lists
    }
}
