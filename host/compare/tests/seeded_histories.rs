//! Small random histories: those of the second program have an order, and those
//! whose lines were altered have none.

use compare::linearizability::check;
use compare::seeded;
use schedule::decided::Decided;
use schedule::script::shape;
use schedule::{Options, Random};

struct Sample {
    bytes: Vec<u8>,
    lines: Vec<String>,
}

impl Sample {
    fn of(seed: u64) -> Self {
        let mut bytes = Vec::new();
        seeded::history(seed, &mut bytes);
        Self::of_file(bytes)
    }

    fn of_file(bytes: Vec<u8>) -> Self {
        let output = schedule::lines(&bytes[..]);
        let lines = output.lines().map(str::to_string).collect();
        Self { bytes, lines }
    }

    fn is_accepted(&self) -> bool {
        let lines = self.lines.iter().map(|line| format!("{line}\n"));
        check(&self.bytes, &lines.collect::<String>()).is_ok()
    }

    /// The same with one line replaced.
    fn with(&self, place: usize, line: &str) -> Self {
        let mut lines = self.lines.clone();
        lines[place] = line.to_string();
        let bytes = self.bytes.clone();
        Self { bytes, lines }
    }

    /// The places of lines that begin like this.
    fn places(&self, begin: &str) -> Vec<usize> {
        let places = 0..self.lines.len();
        places
            .filter(|&place| self.lines[place].starts_with(begin))
            .collect()
    }

    fn words(&self, place: usize) -> Vec<&str> {
        self.lines[place].split(' ').collect()
    }
}

/// In many histories a take is decided by a reflection order against the tickets, and in
/// many by the ticket.
#[test]
fn many_histories_have_ties() {
    let (mut by_order, mut by_ticket) = (0, 0);
    for seed in 0..800 {
        let decided = Decided::of(&Sample::of(seed).bytes);
        by_order += usize::from(decided.by_order > 0);
        by_ticket += usize::from(decided.by_ticket > 0);
    }
    println!("{by_order} by order, {by_ticket} by ticket");
    assert!(by_order > 200 && by_ticket > 200, "{by_order} {by_ticket}");
}

#[test]
fn the_second_program_always_has_an_order() {
    for seed in 0..800 {
        assert!(Sample::of(seed).is_accepted(), "seed {seed}");
    }
}

/// Histories that end with all calls ended and everything taken.
fn drained() -> impl Iterator<Item = Sample> {
    (0..300).step_by(2).map(Sample::of)
}

#[test]
fn an_arrival_lost_is_noticed() {
    let mut altered = 0;
    for sample in drained() {
        for place in sample.places("took") {
            assert!(!sample.with(place, "empty").is_accepted());
            altered += 1;
        }
    }
    assert!(altered > 500, "{altered}");
}

#[test]
fn another_arrival_is_noticed() {
    let random = &mut Random::new(1);
    let mut altered = 0;
    for sample in drained() {
        let places = sample.places("took");
        for &place in &places {
            let other = &sample.lines[random.choose(&places)];
            if *other != sample.lines[place] {
                assert!(!sample.with(place, other).is_accepted());
                altered += 1;
            }
        }
    }
    assert!(altered > 500, "{altered}");
}

#[test]
fn one_arrival_too_many_is_noticed() {
    for sample in drained() {
        let last = sample.lines.len() - 1;
        assert_eq!(sample.lines[last], "empty");
        for place in sample.places("took") {
            assert!(!sample.with(last, &sample.lines[place]).is_accepted());
        }
    }
}

#[test]
fn wrong_numbers_are_noticed() {
    for sample in drained() {
        for place in sample.places("stored") {
            let ticket: u64 = sample.words(place)[1].parse().unwrap();
            let other = format!("stored {}", ticket + 1);
            assert!(!sample.with(place, &other).is_accepted());
        }
        for place in sample.places("took") {
            // No distance has an energy of 1 to 15.
            let words = sample.words(place);
            let other = format!("took {} {} {} 15", words[1], words[2], words[3]);
            assert!(!sample.with(place, &other).is_accepted());
        }
    }
}

/// Of takes alone, one after the other, the first answers the lower key:
/// exchanged, they are wrong, also of equal times. Of all neighbours, most are.
#[test]
fn exchanged_arrivals_are_noticed() {
    let (mut altered, mut noticed, mut alone, mut ties) = (0, 0, 0, 0);
    for sample in drained() {
        for pair in sample.places("took").windows(2) {
            let (first, second) = (pair[0], pair[1]);
            let mut other = sample.with(first, &sample.lines[second]);
            other.lines[second] = sample.lines[first].clone();
            if other.lines == sample.lines {
                continue;
            }
            let is_noticed = !other.is_accepted();
            altered += 1;
            noticed += usize::from(is_noticed);
            if are_alone(&sample, first, second) {
                assert!(is_noticed);
                alone += 1;
                ties += usize::from(sample.words(first)[1] == sample.words(second)[1]);
            }
        }
    }
    println!("{alone} alone, {ties} of them ties");
    assert!(alone > 50 && ties > 50, "{alone}, {ties}");
    assert!(2 * noticed > altered, "{noticed} of {altered}");
}

/// Whether these answers are of two takes that overlap no other call, with no
/// call between them.
fn are_alone(sample: &Sample, first: usize, second: usize) -> bool {
    let lines = &sample.lines;
    let start = lines[..first].iter().rposition(|line| begins(line));
    let start = match start {
        Some(start) => start,
        None => return false,
    };
    let count = |lines: &[String]| {
        let begun = lines.iter().filter(|line| begins(line)).count();
        (begun, lines.iter().filter(|line| ends(line)).count())
    };
    let (begun, ended) = count(&lines[..start]);
    begun == ended && count(&lines[start..=second]) == (2, 2)
}

fn begins(line: &str) -> bool {
    line.starts_with("begun")
}

fn ends(line: &str) -> bool {
    ["stored", "took", "empty"]
        .iter()
        .any(|name| line.starts_with(name))
}

/// Fourteen calls at once, for hundreds of records: still quick, also where
/// there is no order. (Of what is altered in 300 such files, three fifths show.)
#[test]
fn many_workers() {
    let options = Options {
        one_opening: true,
        no_refusals: true,
        shape: Some(shape(14, 24, 2, 3)),
    };
    let (mut altered, mut noticed) = (0, 0);
    for seed in 0..100 {
        let mut bytes = Vec::new();
        schedule::write(seed, 800, options, &mut bytes).unwrap();
        let sample = Sample::of_file(bytes);
        assert!(sample.is_accepted(), "seed {seed}");
        for place in sample.places("took") {
            altered += 1;
            noticed += usize::from(!sample.with(place, "empty").is_accepted());
        }
    }
    assert!(2 * noticed > altered, "{noticed} of {altered}");
}
