//! How often there was something to check.

use std::fmt;
use std::ops::AddAssign;

use crate::taken_list::calls::NEVER;
use crate::taken_list::first_end::FirstEnd;
use crate::taken_list::seen::Seen;

/// Where the promises say something.
#[derive(Clone, Copy, Debug, Default, PartialEq, Eq)]
pub struct Met {
    pub histories: usize,
    /// 2: puts that must be marked when some take ends, as it answered a later
    /// arrival; and how many of them were then held by a take in progress.
    pub earlier: usize,
    pub earlier_held: usize,
    /// 3: the same for takes that answered empty.
    pub before_empty: usize,
    pub before_empty_held: usize,
    /// 4: takes whose arrival was in the pool all through another take, which
    /// answered one.
    pub two_takes: usize,
    /// 5: answers; and how many of them could have come from several puts.
    pub answers: usize,
    pub alike: usize,
}

impl Met {
    pub fn of(seen: &Seen) -> Self {
        let (earlier, earlier_held) = due(seen, &seen.later);
        let (before_empty, before_empty_held) = due(seen, &seen.empty);
        let takes = &seen.calls.takes;
        let groups = seen.alike.groups.iter();
        let alike = groups.filter(|group| group.puts.len() > 1);
        Self {
            histories: 1,
            earlier,
            earlier_held,
            before_empty,
            before_empty_held,
            two_takes: two_takes(seen),
            answers: takes.iter().filter(|take| take.answer.is_some()).count(),
            alike: alike.map(|group| group.takes.len()).sum(),
        }
    }
}

/// The puts that must be marked, and those then held by a take in progress.
fn due(seen: &Seen, takes: &[Option<usize>]) -> (usize, usize) {
    let (mut due, mut held) = (0, 0);
    for (put, take) in takes.iter().enumerate() {
        if let Some(take) = *take {
            due += 1;
            let taker = seen.takers.of_put(put);
            let end = taker.map_or(NEVER, |taker| seen.calls.takes[taker].end);
            held += usize::from(end > seen.calls.takes[take].end);
        }
    }
    (due, held)
}

fn two_takes(seen: &Seen) -> usize {
    let (puts, takes) = (&seen.calls.puts, &seen.calls.takes);
    let answers = FirstEnd::of(takes, |take| take.answer.is_some());
    let is_met = |&(y, d): &(usize, usize)| {
        let c = answers.after(puts[y].end);
        c.map_or(false, |c| takes[c].end < takes[d].start)
    };
    seen.takers.answered(&seen.calls).filter(is_met).count()
}

impl AddAssign for Met {
    fn add_assign(&mut self, more: Self) {
        self.histories += more.histories;
        self.earlier += more.earlier;
        self.earlier_held += more.earlier_held;
        self.before_empty += more.before_empty;
        self.before_empty_held += more.before_empty_held;
        self.two_takes += more.two_takes;
        self.answers += more.answers;
        self.alike += more.alike;
    }
}

impl fmt::Display for Met {
    fn fmt(&self, f: &mut fmt::Formatter<'_>) -> fmt::Result {
        write!(
            f,
            "{} histories; 2: {} puts ({} held), 3: {} puts ({} held), 4: {} takes, \
             5: {} answers ({} alike)",
            self.histories,
            self.earlier,
            self.earlier_held,
            self.before_empty,
            self.before_empty_held,
            self.two_takes,
            self.answers,
            self.alike
        )
    }
}
