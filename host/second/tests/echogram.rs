//! The echogram: its limits, borders and refusals by hand; random ones by its rules, U of
//! docs/RULES.md.

mod common;

use std::ops::Range;
use std::thread;

use common::{refused, Lent};
use schedule::echograms::Case;
use schedule::script::shape;
use schedule::Random;
use second::{clear_row, record, record_series, Refusal, Response};

/// The last time there is, and the largest slot and sum: 2^32 - 1.
const LAST: u32 = 4_294_967_295;
/// What no answer of a recording is.
const UNTOUCHED: u8 = 0xAA;

/// By its number, if it is refused.
type Outcome<T = ()> = Result<T, u8>;

fn numbered(outcome: Result<(), Refusal>) -> Outcome {
    outcome.map_err(Refusal::number)
}

/// A row with its slot length. Each operation checks that a refusal changes nothing.
#[derive(Clone, Debug, PartialEq)]
struct Echogram {
    slot_length: u64,
    row: Vec<u32>,
}

impl Echogram {
    fn new(slot_length: u64, row: &[u32]) -> Self {
        let row = row.to_vec();
        Self { slot_length, row }
    }

    fn clear(&mut self) -> Outcome {
        let before = self.clone();
        let outcome = numbered(clear_row(self.slot_length, &mut self.row));
        assert!(outcome.is_ok() || *self == before, "a refusal changed it");
        outcome
    }

    /// A recording by itself, which is also a series of one.
    fn record(&mut self, time: u32, energy: u32) -> Outcome {
        let before = self.clone();
        let mut in_series = self.clone();
        let outcome = numbered(record(self.slot_length, time, energy, &mut self.row));
        assert!(outcome.is_ok() || *self == before, "a refusal changed it");
        let answer = match outcome {
            Ok(()) => Ok(vec![0]),
            Err(13) => Err(13),
            Err(number) => Ok(vec![number]),
        };
        assert_eq!(in_series.series(&[time], &[energy]), answer);
        assert_eq!(in_series, *self);
        outcome
    }

    /// A series, with as many answers as times.
    fn series(&mut self, times: &[u32], energies: &[u32]) -> Outcome<Vec<u8>> {
        self.series_into(times, energies, times.len())
    }

    /// A series with room for so many answers.
    fn series_into(&mut self, times: &[u32], energies: &[u32], room: usize) -> Outcome<Vec<u8>> {
        let before = self.clone();
        let mut answers = vec![UNTOUCHED; room];
        let (length, row) = (self.slot_length, &mut self.row);
        let outcome = record_series(length, times, energies, &mut answers, row);
        if outcome.is_err() {
            assert_eq!(answers, vec![UNTOUCHED; room]);
            assert_eq!(*self, before);
        }
        numbered(outcome).map(|()| answers)
    }

    /// Every operation, on a copy each.
    fn all(&self, time: u32, energy: u32) -> [Outcome; 3] {
        let none = self.clone().series(&[], &[]);
        [
            self.clone().clear(),
            self.clone().record(time, energy),
            none.map(|answers| assert!(answers.is_empty())),
        ]
    }
}

fn sum(row: &[u32]) -> u64 {
    row.iter().map(|&slot| u64::from(slot)).sum()
}

// Limits.

#[test]
fn refusals_by_name_and_number() {
    for (refusal, number) in [
        (Refusal::MemoryTooShort, 2),
        (Refusal::EchogramOutsideLimits, 13),
        (Refusal::SlotPastRow, 14),
        (Refusal::SumTooLarge, 15),
    ] {
        assert_eq!(refusal.number(), number);
        assert_eq!(refused(number), Err(refusal));
    }
}

#[test]
fn rows_at_their_limits() {
    for slots in [1, 2, 16_383, 16_384] {
        let echogram = Echogram::new(48, &vec![1; slots]);
        assert_eq!(echogram.all(0, 1), [Ok(()); 3], "{slots}");
    }
    for slots in [0, 16_385, 16_386, 32_768, 65_537] {
        let echogram = Echogram::new(48, &vec![1; slots]);
        assert_eq!(echogram.all(0, 1), [Err(13); 3], "{slots}");
    }
}

#[test]
fn slot_lengths_at_their_limits() {
    for slot_length in [1, 2, 4_799, 4_800] {
        let echogram = Echogram::new(slot_length, &[1, 2, 3]);
        assert_eq!(echogram.all(0, 1), [Ok(()); 3], "{slot_length}");
    }
    let wide = 1 << 32;
    let widest = 1 << 63;
    for slot_length in [0, 4_801, 4_802, wide, wide + 1, wide + 48]
        .into_iter()
        .chain([widest - 1, widest, widest + 1, widest + 48, u64::MAX])
    {
        let echogram = Echogram::new(slot_length, &[1, 2, 3]);
        assert_eq!(echogram.all(0, 1), [Err(13); 3], "{slot_length}");
    }
}

/// Row and slot length may both be outside.
#[test]
fn both_outside_their_limits() {
    for slots in [0, 16_385] {
        for slot_length in [0, 4_801, 1 << 63, u64::MAX] {
            let echogram = Echogram::new(slot_length, &vec![1; slots]);
            assert_eq!(echogram.all(0, 1), [Err(13); 3]);
        }
    }
}

// Clearing.

/// Whatever the slots held, also more than they may.
#[test]
fn clearing_sets_every_slot_to_0() {
    for slots in [1, 2, 3, 5, 16_384] {
        for slot in [0, 1, LAST] {
            let mut echogram = Echogram::new(4_800, &vec![slot; slots]);
            assert_eq!(echogram.clear(), Ok(()));
            assert_eq!(echogram.row, vec![0; slots]);
        }
    }
}

// Slots.

/// Records 7 at each of these times and expects it in that slot alone, or 14.
fn check_slots(slot_length: u64, slots: usize, expected: &[(u32, Option<usize>)]) {
    let row: Vec<u32> = (0..slots as u32).map(|slot| 100 + slot).collect();
    for &(time, slot) in expected {
        let mut echogram = Echogram::new(slot_length, &row);
        let mut expected = row.clone();
        let outcome = match slot {
            Some(slot) => {
                expected[slot] += 7;
                Ok(())
            }
            None => Err(14),
        };
        assert_eq!(echogram.record(time, 7), outcome, "{time} of {slot_length}");
        assert_eq!(echogram.row, expected, "{time} of {slot_length}");
    }
}

#[test]
fn borders_of_slots() {
    check_slots(
        48,
        3,
        &[
            (0, Some(0)),
            (1, Some(0)),
            (47, Some(0)),
            (48, Some(1)),
            (49, Some(1)),
            (95, Some(1)),
            (96, Some(2)),
            (143, Some(2)),
            (144, None),
            (145, None),
            (192, None),
            (LAST, None),
        ],
    );
    check_slots(
        7,
        2,
        &[
            (6, Some(0)),
            (7, Some(1)),
            (13, Some(1)),
            (14, None),
            (LAST, None),
        ],
    );
}

/// Shortest and longest slots in the shortest and longest rows: 16,384 × 4,800 is
/// 78,643,200.
#[test]
fn borders_of_rows() {
    check_slots(1, 1, &[(0, Some(0)), (1, None), (2, None), (LAST, None)]);
    check_slots(
        4_800,
        1,
        &[(0, Some(0)), (4_799, Some(0)), (4_800, None), (LAST, None)],
    );
    check_slots(
        1,
        16_384,
        &[
            (0, Some(0)),
            (1, Some(1)),
            (16_382, Some(16_382)),
            (16_383, Some(16_383)),
            (16_384, None),
            (LAST - 1, None),
            (LAST, None),
        ],
    );
    check_slots(
        4_800,
        16_384,
        &[
            (4_799, Some(0)),
            (4_800, Some(1)),
            (78_638_399, Some(16_382)),
            (78_638_400, Some(16_383)),
            (78_643_199, Some(16_383)),
            (78_643_200, None),
            (1 << 31, None),
            (LAST, None),
        ],
    );
}

/// A slot that is 2^16 further on, or a multiple of that, is past the row like others.
#[test]
fn slots_do_not_come_round() {
    check_slots(
        1,
        2,
        &[
            (65_536, None),
            (65_537, None),
            (1 << 24, None),
            (1 << 31, None),
            ((1 << 31) + 1, None),
        ],
    );
    check_slots(
        4_800,
        16_384,
        &[(65_536 * 4_800, None), (851_968 * 4_800, None)],
    );
}

/// The first sample of each slot, and the last one, for every slot length. Slot i gets
/// i + 1 and then twice as much.
#[test]
fn every_slot_of_every_length() {
    let expected: Vec<u32> = (1..=16_384).map(|place| 3 * place).collect();
    let energies: Vec<u32> = (1..=16_384)
        .chain((1..=16_384).map(|place| 2 * place))
        .collect();
    for length in 1..=4_800 {
        let firsts = (0..16_384).map(|slot| slot * length);
        let lasts = (1..=16_384).map(|slot| slot * length - 1);
        let times: Vec<u32> = firsts.chain(lasts).collect();
        let mut echogram = Echogram::new(length.into(), &[0; 16_384]);
        let answers = echogram.series(&times, &energies);
        assert!(answers == Ok(vec![0; 32_768]), "{length}");
        assert!(echogram.row == expected, "{length}");
        let answers = echogram.series(&[16_384 * length, LAST], &[1, 1]);
        assert_eq!(answers, Ok(vec![14, 14]), "{length}");
    }
}

// Energies.

#[test]
fn recordings_add_up() {
    let mut echogram = Echogram::new(10, &[5, 6, 7]);
    for (time, energy, row) in [
        (9, 100, [105, 6, 7]),
        (10, 1, [105, 7, 7]),
        (29, 0, [105, 7, 7]),
        (20, 16_777_216, [105, 7, 16_777_223]),
        (0, 16, [121, 7, 16_777_223]),
        (0, 16, [137, 7, 16_777_223]),
    ] {
        assert_eq!(echogram.record(time, energy), Ok(()));
        assert_eq!(echogram.row, row);
    }
}

/// Records an energy in the first slot of a row, in one amid it and in the last, a copy
/// each.
fn check_energy(row: &[u32], energy: u32, outcome: Outcome) {
    let slots = row.len();
    for slot in [0, slots / 2, slots - 1] {
        let mut echogram = Echogram::new(10, row);
        let mut expected = row.to_vec();
        if outcome.is_ok() {
            expected[slot] += energy;
        }
        let time = 10 * slot as u32 + 9;
        assert_eq!(echogram.record(time, energy), outcome, "{energy} in {slot}");
        assert_eq!(echogram.row, expected);
    }
}

/// Records up to the largest sum, and one more than that.
fn check_border(row: &[u32], left: u32) {
    check_energy(row, 0, Ok(()));
    check_energy(row, left, Ok(()));
    if let Some(more) = left.checked_add(1) {
        check_energy(row, more, Err(15));
        check_energy(row, LAST, Err(15));
    }
}

#[test]
fn sums_at_the_border() {
    check_border(&[0], LAST);
    check_border(&[1], 4_294_967_294);
    check_border(&[LAST - 1], 1);
    check_border(&[LAST], 0);
    check_border(&[0, 0], LAST);
    check_border(&[LAST - 10, 4], 6);
    check_border(&[4, LAST - 10], 6);
    check_border(&[LAST, 0, 0], 0);
    check_border(&[0, 0, LAST], 0);
    check_border(&[1 << 31, (1 << 31) - 1], 0);
    check_border(&[1 << 31, (1 << 31) - 2], 1);
    check_border(&[1_000_000_000; 4], 294_967_295);
    // 16,384 × 262,144 is 2^32.
    check_border(&[262_143; 16_384], 16_383);
    let mut longest = [262_144; 16_384];
    longest[16_383] -= 1;
    check_border(&longest, 0);
    longest[0] -= 5;
    check_border(&longest, 5);
}

/// One above is too much even for nothing, wherever it is.
#[test]
fn rows_that_hold_too_much() {
    for row in [
        &[LAST, 1][..],
        &[1, LAST],
        &[LAST, LAST],
        &[1 << 31, 1 << 31],
        &[0, LAST, 0, 1, 0],
        &[1 << 30; 5],
        &[1_431_655_766, 1_431_655_765, 1_431_655_765],
        &[262_144; 16_384],
        &[LAST; 16_384],
    ] {
        for energy in [0, 1, 1 << 24, 1 << 31, LAST] {
            check_energy(row, energy, Err(15));
        }
    }
}

/// Once the border is reached nothing but 0 is recorded, until the row is cleared.
#[test]
fn full_rows_take_nothing_more() {
    let mut echogram = Echogram::new(1, &[0, 0]);
    assert_eq!(echogram.record(1, LAST), Ok(()));
    for time in [0, 1] {
        assert_eq!(echogram.record(time, 0), Ok(()));
        assert_eq!(echogram.record(time, 1), Err(15));
        assert_eq!(echogram.record(time, LAST), Err(15));
    }
    assert_eq!(echogram.row, [0, LAST]);
    assert_eq!(echogram.clear(), Ok(()));
    assert_eq!(echogram.record(0, LAST), Ok(()));
    assert_eq!(echogram.row, [LAST, 0]);
}

// Order.

#[test]
fn the_lowest_number_is_the_answer() {
    // Each would be 14, and 15 as well.
    for slot_length in [0, 4_801, 1 << 63, u64::MAX] {
        let mut echogram = Echogram::new(slot_length, &[LAST, LAST]);
        assert_eq!(echogram.record(LAST, LAST), Err(13));
    }
    for slots in [0, 16_385] {
        let mut echogram = Echogram::new(1, &vec![LAST; slots]);
        assert_eq!(echogram.record(LAST, LAST), Err(13));
    }
    for row in [&[LAST][..], &[LAST, 1], &[LAST; 16_384]] {
        let span = 10 * row.len() as u32;
        let mut echogram = Echogram::new(10, row);
        for energy in [1, LAST] {
            assert_eq!(echogram.record(span - 1, energy), Err(15));
            assert_eq!(echogram.record(span, energy), Err(14));
            assert_eq!(echogram.record(LAST, energy), Err(14));
        }
    }
    // 15 with no energy at all, and still 14 first.
    let mut echogram = Echogram::new(10, &[LAST, 1]);
    assert_eq!(echogram.record(19, 0), Err(15));
    assert_eq!(echogram.record(20, 0), Err(14));
}

// Series.

#[test]
fn a_series_by_hand() {
    let mut echogram = Echogram::new(10, &[0, 0, 0]);
    let recordings = [
        (5, 7, 0),
        (30, 1, 14),
        (29, 4_294_967_287, 0),
        (12, 2, 15),
        (12, 1, 0),
        (0, 0, 0),
        (9, 1, 15),
        (LAST, LAST, 14),
        (20, 0, 0),
    ];
    let times = recordings.map(|recording| recording.0);
    let energies = recordings.map(|recording| recording.1);
    let answers = recordings.map(|recording| recording.2);
    assert_eq!(echogram.series(&times, &energies), Ok(answers.to_vec()));
    assert_eq!(echogram.row, [7, 1, 4_294_967_287]);
}

/// What each slot held counts.
#[test]
fn a_series_on_a_row_in_use() {
    let mut echogram = Echogram::new(4_800, &[LAST - 20, 0, 9]);
    let answers = echogram.series(&[0, 4_800, 9_600, 0], &[5, 5, 1, 1]);
    assert_eq!(answers, Ok(vec![0, 0, 0, 15]));
    assert_eq!(echogram.row, [LAST - 15, 5, 10]);
}

#[test]
fn a_series_on_a_row_that_holds_too_much() {
    let row = [1 << 31, 1 << 31];
    let mut echogram = Echogram::new(1, &row);
    let answers = echogram.series(&[0, 1, 2, 0, LAST], &[0, 0, 0, LAST, 1]);
    assert_eq!(answers, Ok(vec![15, 15, 14, 15, 14]));
    assert_eq!(echogram.row, row);
}

#[test]
fn a_series_of_none() {
    for row in [&[3][..], &[LAST, LAST], &[LAST; 16_384]] {
        let mut echogram = Echogram::new(48, row);
        assert_eq!(echogram.series(&[], &[]), Ok(vec![]));
        assert_eq!(echogram.row, row);
    }
    assert_eq!(Echogram::new(48, &[]).series(&[], &[]), Err(13));
    assert_eq!(Echogram::new(48, &[0; 16_385]).series(&[], &[]), Err(13));
    assert_eq!(Echogram::new(0, &[0]).series(&[], &[]), Err(13));
    assert_eq!(Echogram::new(4_801, &[0]).series(&[], &[]), Err(13));
}

/// How many times, energies and answers.
const UNLIKE: [(usize, usize, usize); 17] = [
    (1, 0, 0),
    (0, 1, 0),
    (0, 0, 1),
    (1, 1, 0),
    (1, 0, 1),
    (0, 1, 1),
    (2, 1, 1),
    (1, 2, 1),
    (1, 1, 2),
    (2, 2, 1),
    (2, 1, 2),
    (1, 2, 2),
    (3, 2, 1),
    (1, 2, 3),
    (3, 3, 0),
    (3, 0, 3),
    (0, 3, 3),
];

/// 2 comes before 13, and the recordings do not matter to it.
#[test]
fn a_series_of_unlike_lengths() {
    let (times, energies) = ([0, 9, LAST], [1, 2, LAST]);
    for (slot_length, slots) in [(10, 1), (10, 16_384), (10, 0), (0, 1), (4_801, 16_385)] {
        let echogram = Echogram::new(slot_length, &vec![1; slots]);
        for (i, j, room) in UNLIKE {
            let outcome = echogram
                .clone()
                .series_into(&times[..i], &energies[..j], room);
            assert_eq!(outcome, Err(2), "{i} {j} {room}");
        }
        let outcome = echogram.clone().series_into(&times, &energies, 3);
        let is_good = slot_length == 10 && slots > 0;
        let expected = if is_good { Ok(vec![0, 0, 14]) } else { Err(13) };
        assert_eq!(outcome, expected);
    }
}

// Taken arrivals.

/// At distance 3 each has 1,864,135: two in the slot from 0, one in that from 16.
#[test]
fn taken_arrivals_are_recorded() {
    let mut lent = Lent::with_stored(shape(2, 4, 2, 10), &[15, 5, 20]);
    let mut echogram = Echogram::new(16, &[9, 9]);
    assert_eq!(echogram.clear(), Ok(()));
    for _ in 0..3 {
        match lent.take_whole(0) {
            Ok(Response::Took { time, energy, .. }) => {
                let time = time.try_into().unwrap();
                assert_eq!(echogram.record(time, energy), Ok(()));
            }
            other => panic!("{other:?}"),
        }
    }
    assert_eq!(echogram.row, [3_728_270, 1_864_135]);
}

// Random recordings.

/// Says its seed if a test fails on it.
struct Seed(u64);

impl Drop for Seed {
    fn drop(&mut self) {
        if thread::panicking() {
            eprintln!("failed on seed {}", self.0);
        }
    }
}

fn on_seeds(seeds: Range<u64>, mut run: impl FnMut(&mut Random)) {
    for seed in seeds {
        let _at = Seed(seed);
        run(&mut Random::new(seed));
    }
}

/// The lowest number that applies (U6, U7).
fn first_refusal(echogram: &Echogram, time: u32, energy: u32) -> Option<u8> {
    let Echogram { slot_length, row } = echogram;
    if row.is_empty() || row.len() > 16_384 || *slot_length == 0 || *slot_length > 4_800 {
        return Some(13);
    }
    let slot = u64::from(time) / slot_length;
    if slot >= row.len() as u64 {
        return Some(14);
    }
    let passes = |held: u64| held + u64::from(energy) > u64::from(LAST);
    let does_pass = passes(row[slot as usize].into()) || passes(sum(row));
    does_pass.then_some(15)
}

/// Each recording of a case by itself: the answers, and the row after them (U3).
fn one_by_one(case: &Case) -> (Vec<u8>, Vec<u32>) {
    let mut echogram = Echogram::new(case.slot_length, &case.row);
    let mut answers = Vec::new();
    for (&time, &energy) in case.times.iter().zip(&case.energies) {
        let refusal = first_refusal(&echogram, time, energy);
        let mut expected = echogram.row.clone();
        if refusal.is_none() {
            expected[(u64::from(time) / case.slot_length) as usize] += energy;
        }
        let outcome = numbered(record(case.slot_length, time, energy, &mut echogram.row));
        assert_eq!(outcome.err(), refusal);
        assert!(echogram.row == expected);
        answers.push(refusal.unwrap_or(0));
    }
    (answers, echogram.row)
}

/// How often each number is answered; 0 is recorded.
#[derive(Debug, Default)]
struct Counts([usize; 16]);

impl Counts {
    fn count(&mut self, answers: &[u8]) {
        for &answer in answers {
            self.0[usize::from(answer)] += 1;
        }
    }

    fn each_is_above(&self, least: usize) -> bool {
        [0, 13, 14, 15].iter().all(|&answer| self.0[answer] > least)
    }
}

/// Also on rows that hold too much, and outside the limits, where each is refused by 13
/// as the series is.
#[test]
fn a_series_is_its_recordings_one_by_one() {
    let mut counts = Counts::default();
    let mut overfull = 0;
    on_seeds(0..1_500, |random| {
        let case = Case::draw(random);
        let (answers, row) = one_by_one(&case);
        counts.count(&answers);
        overfull += usize::from(answers.contains(&15) && sum(&case.row) > LAST.into());
        let mut echogram = Echogram::new(case.slot_length, &case.row);
        match echogram.series(&case.times, &case.energies) {
            Ok(together) => assert_eq!(together, answers),
            Err(number) => {
                assert_eq!(number, 13);
                assert_eq!(answers, vec![13; answers.len()]);
            }
        }
        assert!(echogram.row == row);
    });
    assert!(counts.each_is_above(1_000), "{counts:?}");
    assert!(overfull > 50, "{overfull}");
}

/// In pieces of any length, each handed the row that the one before it left.
#[test]
fn series_in_pieces() {
    let mut counts = Counts::default();
    on_seeds(1_500..2_000, |random| {
        let case = Case::draw(random);
        let (expected, row) = one_by_one(&case);
        counts.count(&expected);
        let mut echogram = Echogram::new(case.slot_length, &case.row);
        let mut from = 0;
        while from < case.times.len() {
            let to = case.times.len().min(from + random.length(6) as usize);
            match echogram.series(&case.times[from..to], &case.energies[from..to]) {
                Ok(answers) => assert_eq!(answers, expected[from..to]),
                Err(number) => assert_eq!(vec![number; to - from], expected[from..to]),
            }
            from = to;
        }
        assert!(echogram.row == row);
    });
    assert!(counts.each_is_above(500), "{counts:?}");
}

/// Recordings of any kind, some refused by each number; the slot length may change.
struct Sequence<'a> {
    random: &'a mut Random,
    slots: u32,
}

impl Sequence<'_> {
    /// Mostly 48.
    fn slot_length(&mut self) -> u64 {
        match self.random.below(16) {
            0 => self.random.choose(&[0, 4_801, 1 << 32, 1 << 63]),
            1 => self.random.between(1, 4_800).into(),
            _ => 48,
        }
    }

    fn time(&mut self) -> u32 {
        match self.random.below(16) {
            0 => self.random.draw() as u32,
            1 => self.slots * 48 + self.random.below(2),
            _ => self.random.below(self.slots * 48),
        }
    }

    /// Sometimes all but 1 of what is left beside the energies held.
    fn energy(&mut self, held: u64) -> u32 {
        let left = u64::from(LAST) - held;
        match self.random.below(200) {
            0 => LAST,
            1 => self.random.draw() as u32,
            2 => left.saturating_sub(1) as u32,
            3..=9 => 0,
            _ => 1 << self.random.below(25),
        }
    }
}

/// From a clearing on, what the slots hold together is what was recorded (U12).
#[test]
fn the_sum_is_conserved() {
    let mut counts = Counts::default();
    on_seeds(0..300, |random| {
        let slots = random.choose(&[1, 2, 3, 100, 16_384]);
        let mut row = vec![LAST; slots as usize];
        assert_eq!(clear_row(48, &mut row), Ok(()));
        let mut sequence = Sequence { random, slots };
        let mut recorded = 0;
        for _ in 0..400 {
            let (time, energy) = (sequence.time(), sequence.energy(recorded));
            match record(sequence.slot_length(), time, energy, &mut row) {
                Ok(()) => {
                    recorded += u64::from(energy);
                    counts.count(&[0]);
                }
                Err(refusal) => counts.count(&[refusal.number()]),
            }
            assert_eq!(sum(&row), recorded);
        }
    });
    assert!(counts.each_is_above(1_000), "{counts:?}");
}

/// The same of whole series.
#[test]
fn the_sum_is_conserved_by_series() {
    let mut counts = Counts::default();
    on_seeds(2_000..3_000, |random| {
        let case = Case::draw(random);
        let mut echogram = Echogram::new(case.slot_length, &case.row);
        let is_cleared = echogram.clear();
        match echogram.series(&case.times, &case.energies) {
            Ok(answers) => {
                let pairs = answers.iter().zip(&case.energies);
                let recorded = pairs.filter(|pair| *pair.0 == 0);
                let energies: u64 = recorded.map(|pair| u64::from(*pair.1)).sum();
                assert_eq!(sum(&echogram.row), energies);
                counts.count(&answers);
            }
            Err(number) => {
                assert_eq!((number, is_cleared), (13, Err(13)));
                counts.count(&vec![13; case.times.len()]);
            }
        }
    });
    assert!(counts.each_is_above(1_000), "{counts:?}");
}
