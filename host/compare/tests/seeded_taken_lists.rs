//! The promises on the taken lists of random files: the second program keeps them,
//! and altered lines do not.

use compare::inputs::Input;
use compare::seeded;
use compare::taken_list::{check, Met, Promise, Violation};
use schedule::script::bytes;
use second::{Arrival, Record, Records};

fn met(input: &[u8]) -> Met {
    match check(input, &schedule::lines(input)) {
        Ok(met) => met,
        Err(violation) => panic!("{violation}"),
    }
}

/// In every kind of file each promise has something to say, and in most answers no
/// other put comes into question.
#[test]
fn each_promise_has_something_to_say() {
    let long: [fn(u64, u64) -> Input; 3] = [seeded::every_shape, seeded::narrow, seeded::unrefused];
    for nth in 0..4 {
        let mut all = Met::default();
        for seed in 0..8 {
            all += met(&match long.get(nth) {
                Some(file) => file(seed, 100_000).bytes,
                None => seeded::histories(seed).bytes,
            });
        }
        println!("{all}");
        assert!(all.earlier > 10_000 && all.earlier_held > 500, "{all}");
        assert!(
            all.before_empty > 10_000 && all.before_empty_held > 500,
            "{all}"
        );
        assert!(all.two_takes > 1_000, "{all}");
        assert!(
            all.answers > 10_000 && all.alike * 1_000 < all.answers,
            "{all}"
        );
    }
}

/// The same with arrivals that differ in their time alone.
#[test]
fn alike_arrivals_raise_no_alarm() {
    let mut all = Met::default();
    for seed in 0..16 {
        for file in [
            seeded::histories(seed),
            seeded::narrow(seed, 30_000),
            seeded::unrefused(seed, 30_000),
        ] {
            let records = Records::new(&file.bytes[..]).map(|record| alike(record.unwrap()));
            all += met(&bytes(&records.collect::<Vec<_>>()));
        }
    }
    println!("{all}");
    assert!(all.alike > 10_000 && 4 * all.alike > all.answers, "{all}");
}

fn alike(record: Record) -> Record {
    match record {
        Record::EnqueueStart { worker, arrival } => Record::EnqueueStart {
            worker,
            arrival: Arrival {
                path: 0,
                order: 0,
                distance: 1,
                ..arrival
            },
        },
        other => other,
    }
}

/// A history in which all calls end and everything is taken.
struct Drained {
    bytes: Vec<u8>,
    lines: Vec<String>,
}

impl Drained {
    fn all() -> impl Iterator<Item = Self> {
        (0..600).step_by(2).map(|seed| {
            let mut bytes = Vec::new();
            seeded::history(seed, &mut bytes);
            let output = schedule::lines(&bytes[..]);
            let lines = output.lines().map(str::to_string).collect();
            Self { bytes, lines }
        })
    }

    fn took(&self) -> Vec<usize> {
        let places = 0..self.lines.len();
        places
            .filter(|&place| self.lines[place].starts_with("took"))
            .collect()
    }

    /// What is broken with these lines in place of those.
    fn broken(&self, altered: &[(usize, &str)]) -> Vec<Promise> {
        let mut lines: Vec<&str> = self.lines.iter().map(String::as_str).collect();
        for &(place, line) in altered {
            lines[place] = line;
        }
        match check(&self.bytes, &(lines.join("\n") + "\n")) {
            Ok(_) => Vec::new(),
            Err(Violation::Broken(broken)) => broken.iter().map(|one| one.promise).collect(),
            Err(Violation::Fault(fault)) => panic!("{fault}"),
        }
    }
}

/// The last take finds none, and somewhere an arrival is left.
#[test]
fn an_arrival_lost_is_noticed() {
    for drained in Drained::all() {
        for place in drained.took() {
            let broken = drained.broken(&[(place, "empty")]);
            assert!(broken.contains(&Promise::EmptyMeansEmpty), "{broken:?}");
        }
    }
}

#[test]
fn an_arrival_taken_twice_is_noticed() {
    for drained in Drained::all() {
        for pair in drained.took().windows(2) {
            let (first, second) = (&drained.lines[pair[0]], pair[1]);
            if *first != drained.lines[second] {
                let broken = drained.broken(&[(second, first)]);
                assert!(broken.contains(&Promise::OnceEach), "{broken:?}");
            }
        }
    }
}

/// Two answers one after the other, exchanged: often both orders are right, as the
/// takes overlap, or the second arrival came late.
#[test]
fn exchanged_arrivals_are_noticed_where_a_promise_speaks_of_them() {
    let (mut altered, mut passed_over, mut two_takes) = (0, 0, 0);
    for drained in Drained::all() {
        for pair in drained.took().windows(2) {
            let [first, second] = [pair[0], pair[1]].map(|place| &drained.lines[place]);
            let broken = drained.broken(&[(pair[0], second), (pair[1], first)]);
            altered += usize::from(first != second);
            passed_over += usize::from(broken.contains(&Promise::NothingPassedOver));
            two_takes += usize::from(broken.contains(&Promise::TwoTakes));
        }
    }
    println!("{altered} exchanged: {passed_over} passed over, {two_takes} by two takes");
    assert!(2 * passed_over > altered && 4 * two_takes > altered);
}
