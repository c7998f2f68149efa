//! The words of the command line.

use std::path::PathBuf;

pub const HELP: &str = "\
usage: bench [options]                     (from the top of the repository)

Times the proved pool against its peers. Every ratio is within one run: the
contestants take turns, and the best of several rounds counts.

options:
  --quick          everything small, only to see that it runs
  --only PART      one part: schedules, turn, narrow, hold, threads, calls, growth, tail,
                   echogram, decay or dealer
  --records N      records of a schedule       (default 10,000,000)
  --rounds N       rounds of each contest      (default 7)
  --svg PATH       the picture of growth       (default target/bench/growth.svg)
  --tail-svg PATH  the picture of the tail     (default target/bench/tail.svg)
  --turns PATH     the program under test      (default target/bin/turns)
  --second PATH    the second program          (default host/target/release/second)
  --narrow PATH    the contest of narrow calls (default host/target/contest/narrow)
  --dealer PATH    the contest of dealt turns  (default host/target/contest/dealer)
  --tbb PATH       host/bench/tbb_hold.cpp compiled    (default target/bench/tbb_hold)
  --help           prints this text
";

/// The parts of the report, in their order.
#[derive(Clone, Copy, Debug, PartialEq, Eq)]
pub enum Part {
    Schedules,
    InnerTurn,
    NarrowCalls,
    Hold,
    Threads,
    SingleCalls,
    Growth,
    Tail,
    Echogram,
    Decay,
    Dealer,
}

const PARTS: [(&str, Part); 11] = [
    ("schedules", Part::Schedules),
    ("turn", Part::InnerTurn),
    ("narrow", Part::NarrowCalls),
    ("hold", Part::Hold),
    ("threads", Part::Threads),
    ("calls", Part::SingleCalls),
    ("growth", Part::Growth),
    ("tail", Part::Tail),
    ("echogram", Part::Echogram),
    ("decay", Part::Decay),
    ("dealer", Part::Dealer),
];

#[derive(Clone, Debug)]
pub struct Arguments {
    pub parts: Vec<Part>,
    pub rounds: usize,
    /// Records of a schedule.
    pub records: u64,
    /// Holds of a contest in the hold model.
    pub holds: usize,
    /// Batches that are nearly all turns.
    pub pieces_of_turns: usize,
    /// Rounds of a contest of microseconds, to one of another.
    pub short_rounds: usize,
    pub svg: PathBuf,
    pub tail_svg: PathBuf,
    pub turns: PathBuf,
    pub second: PathBuf,
    pub narrow: PathBuf,
    pub dealer: PathBuf,
    pub tbb: PathBuf,
}

impl Arguments {
    fn full() -> Self {
        Self {
            parts: PARTS.iter().map(|part| part.1).collect(),
            rounds: 7,
            records: 10_000_000,
            holds: 50_000,
            pieces_of_turns: 20,
            short_rounds: 100,
            svg: "target/bench/growth.svg".into(),
            tail_svg: "target/bench/tail.svg".into(),
            turns: "target/bin/turns".into(),
            second: "host/target/release/second".into(),
            narrow: "host/target/contest/narrow".into(),
            dealer: "host/target/contest/dealer".into(),
            tbb: "target/bench/tbb_hold".into(),
        }
    }

    fn quicken(&mut self) {
        self.rounds = 3;
        self.records = 1_000_000;
        self.holds = 10_000;
        self.pieces_of_turns = 5;
        self.short_rounds = 10;
    }

    /// None for words that make no sense.
    pub fn parse(words: &[String]) -> Option<Self> {
        let mut arguments = Self::full();
        if words.iter().any(|word| word == "--quick") {
            arguments.quicken();
        }
        let mut words = words.iter().filter(|word| *word != "--quick");
        while let Some(name) = words.next() {
            let value = words.next()?;
            match name.as_str() {
                "--only" => {
                    let (_, part) = PARTS.iter().find(|part| part.0 == value)?;
                    arguments.parts = vec![*part];
                }
                "--records" => arguments.records = value.parse().ok().filter(|&n| n > 0)?,
                "--rounds" => arguments.rounds = value.parse().ok().filter(|&n| n > 0)?,
                "--svg" => arguments.svg = value.into(),
                "--tail-svg" => arguments.tail_svg = value.into(),
                "--turns" => arguments.turns = value.into(),
                "--second" => arguments.second = value.into(),
                "--narrow" => arguments.narrow = value.into(),
                "--dealer" => arguments.dealer = value.into(),
                "--tbb" => arguments.tbb = value.into(),
                _ => return None,
            }
        }
        Some(arguments)
    }
}
