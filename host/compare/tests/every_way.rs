//! The promises by their sentences, on small random histories: each take with each
//! put that it can have answered or hold, tried in every way.

use compare::taken_list::check;
use schedule::script::{put_arrival, take, turn};
use schedule::{Random, Script};
use second::Arrival;

#[derive(Clone, Copy, PartialEq, Eq)]
enum Kind {
    Put(Arrival),
    Take,
}

#[derive(Clone, Copy, PartialEq, Eq)]
enum Answer {
    Stored,
    Took(Arrival),
    Empty,
}

/// Moments are places of records.
#[derive(Clone, Copy)]
struct Call {
    worker: u8,
    kind: Kind,
    start: usize,
    first_turn: usize,
    end: usize,
    answer: Option<Answer>,
}

/// The moment of what does not happen.
const NEVER: usize = usize::MAX;
const WORKERS: u8 = 4;

/// Calls with made-up answers: mostly those of a queue, at the last turn.
struct Made {
    script: Script,
    calls: Vec<Call>,
}

impl Made {
    fn of(random: &mut Random, paths: u32) -> Self {
        let mut made = Self {
            script: Script::open(WORKERS.into(), 16, 1, 4),
            calls: Vec::new(),
        };
        while made.calls.len() < 11 {
            let worker = random.below(WORKERS.into()) as u8;
            let latest = made.calls.iter().rposition(|call| call.worker == worker);
            match latest {
                Some(call) if made.calls[call].end == NEVER => made.turn(random, call),
                _ => made.start(random, worker, paths),
            }
        }
        made
    }

    fn start(&mut self, random: &mut Random, worker: u8, paths: u32) {
        let arrival = Arrival {
            time: random.below(3),
            path: random.below(paths),
            order: random.below(2),
            distance: 1,
        };
        let (kind, record) = match random.one_in(2) {
            true => (Kind::Put(arrival), put_arrival(worker, arrival)),
            false => (Kind::Take, take(worker)),
        };
        self.calls.push(Call {
            worker,
            kind,
            start: self.script.records().len(),
            first_turn: NEVER,
            end: NEVER,
            answer: None,
        });
        self.script = std::mem::take(&mut self.script).begin(record);
    }

    fn turn(&mut self, random: &mut Random, call: usize) {
        let at = self.script.records().len();
        let Call { worker, kind, .. } = self.calls[call];
        self.calls[call].first_turn = self.calls[call].first_turn.min(at);
        let answer = match kind {
            _ if random.one_in(2) => None,
            Kind::Put(_) => Some(Answer::Stored),
            Kind::Take => Some(self.answer(random)),
        };
        let line = match answer {
            None => "on".to_string(),
            Some(Answer::Stored) => format!("stored {}", call + 1),
            Some(Answer::Took(arrival)) => {
                let Arrival {
                    time, path, order, ..
                } = arrival;
                format!("took {time} {path} {order} 16777216")
            }
            Some(Answer::Empty) => "empty".to_string(),
        };
        if answer.is_some() {
            self.calls[call].end = at;
            self.calls[call].answer = answer;
        }
        self.script = std::mem::take(&mut self.script).and(turn(worker), &line);
    }

    fn answer(&self, random: &mut Random) -> Answer {
        let mut left: Vec<Arrival> = Vec::new();
        for call in self.calls.iter().filter(|call| call.first_turn != NEVER) {
            if let Kind::Put(arrival) = call.kind {
                left.push(arrival);
            }
        }
        left.sort_by_key(|arrival| (arrival.time, arrival.order));
        for call in &self.calls {
            if let Some(Answer::Took(taken)) = call.answer {
                let place = left.iter().position(|&arrival| arrival == taken);
                place.map(|place| left.remove(place));
            }
        }
        let nth = if random.one_in(6) {
            random.below(3) as usize
        } else {
            0
        };
        match left.get(nth) {
            Some(&arrival) if !random.one_in(12) => Answer::Took(arrival),
            _ => Answer::Empty,
        }
    }

    fn is_accepted(&self) -> bool {
        check(&self.script.bytes(), &self.script.output()).is_ok()
    }

    fn has_alike(&self) -> bool {
        let puts = self.calls.iter().filter(|call| call.kind != Kind::Take);
        let puts: Vec<Kind> = puts.map(|call| call.kind).collect();
        (1..puts.len()).any(|place| puts[..place].contains(&puts[place]))
    }

    /// Whether some way to give the takes their puts keeps the promises.
    fn is_kept(&self, takers: &mut Vec<Option<usize>>, call: usize) -> bool {
        let take = match self.calls.get(call) {
            None => return self.are_kept(takers),
            Some(take) => take,
        };
        let nothing = match (take.kind, take.answer) {
            (Kind::Take, Some(Answer::Took(_))) => false,
            (Kind::Take, None) => true,
            _ => return self.is_kept(takers, call + 1),
        };
        for put in 0..self.calls.len() {
            if takers[put].is_none() && can_have(take, &self.calls[put]) {
                takers[put] = Some(call);
                if self.is_kept(takers, call + 1) {
                    return true;
                }
                takers[put] = None;
            }
        }
        nothing && self.is_kept(takers, call + 1)
    }

    /// The sentences, for every pair of calls.
    fn are_kept(&self, takers: &[Option<usize>]) -> bool {
        let calls = &self.calls;
        let key = |put: usize| match calls[put].kind {
            Kind::Put(arrival) => (arrival.time, arrival.order, put),
            Kind::Take => unreachable!("only puts have takers"),
        };
        let answered = |take: usize| {
            let put = takers.iter().position(|&taker| taker == Some(take));
            put.filter(|_| calls[take].answer.is_some())
        };
        let is_marked =
            |x: usize, at: usize| takers[x].map_or(false, |taker| calls[taker].first_turn < at);
        for x in (0..calls.len()).filter(|&x| calls[x].kind != Kind::Take) {
            for d in (0..calls.len()).filter(|&d| calls[x].end < calls[d].start) {
                let is_later = answered(d).map_or(false, |y| key(x) < key(y));
                let is_empty = calls[d].answer == Some(Answer::Empty);
                if (is_later || is_empty) && !is_marked(x, calls[d].end) {
                    return false;
                }
            }
        }
        for c in 0..calls.len() {
            for d in (0..calls.len()).filter(|&d| calls[c].end < calls[d].start) {
                if let (Some(x), Some(y)) = (answered(c), answered(d)) {
                    if calls[y].end < calls[c].start && key(x) > key(y) {
                        return false;
                    }
                }
            }
        }
        true
    }
}

/// Whether a take can have answered or hold the arrival of a put.
fn can_have(take: &Call, put: &Call) -> bool {
    let is_it = match (put.kind, take.answer) {
        (Kind::Put(arrival), Some(Answer::Took(taken))) => arrival == taken,
        (Kind::Put(_), None) => take.first_turn != NEVER && put.first_turn != NEVER,
        _ => false,
    };
    is_it && put.first_turn < take.end
}

/// Nothing is refused that is right in some way; and where no two arrivals are
/// alike, everything else is.
#[test]
fn what_is_right_in_some_way_is_accepted() {
    let random = &mut Random::new(13);
    let (mut kept, mut refused, mut let_pass) = ([0; 2], [0; 2], 0);
    for round in 0..60_000 {
        let made = Made::of(random, if round % 2 == 0 { 1 } else { 1_000 });
        let alike = usize::from(made.has_alike());
        let is_kept = made.is_kept(&mut vec![None; made.calls.len()], 0);
        kept[alike] += usize::from(is_kept);
        match (is_kept, made.is_accepted()) {
            (true, false) => panic!("{}", made.script.output()),
            (false, true) if alike == 0 => panic!("{}", made.script.output()),
            (false, true) => let_pass += 1,
            (false, false) => refused[alike] += 1,
            (true, true) => {}
        }
    }
    println!("kept {kept:?}, refused {refused:?}, let pass {let_pass}");
    assert!(kept.into_iter().chain(refused).all(|count| count > 2_000));
    assert!(20 * let_pass < refused[1], "{let_pass} of {refused:?}");
}
