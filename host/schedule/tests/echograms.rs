//! Random echograms: that each kind of row, slot length, time and energy occurs, a good
//! share of each.

mod common;

use common::{assert_shares, count, sum, Counts, MOST, SEEDS};
use schedule::echograms::Case;
use schedule::Random;

fn is_within_limits(case: &Case) -> bool {
    (1..=16_384).contains(&case.row.len()) && (1..=4_800).contains(&case.slot_length)
}

fn cases() -> impl Iterator<Item = Case> {
    (0..SEEDS).map(Case::new)
}

fn cases_within_limits() -> impl Iterator<Item = Case> {
    cases().filter(is_within_limits)
}

#[test]
fn a_seed_has_one_case() {
    for seed in 0..100 {
        let case = Case::new(seed);
        assert_eq!(case, Case::draw(&mut Random::new(seed)), "seed {seed}");
        assert_eq!(case.times.len(), case.energies.len(), "seed {seed}");
        assert_ne!(case, Case::new(seed + 1), "seed {seed}");
    }
}

#[test]
fn most_cases_are_within_the_limits() {
    let within = cases_within_limits().count() as u64;
    assert!(4 * within > 3 * SEEDS, "{within}");
    assert!(20 * within < 19 * SEEDS, "{within}");
}

#[test]
fn rows_and_slot_lengths_of_every_kind() {
    let mut counts = Counts::new();
    for case in cases() {
        let (slots, length) = (case.row.len(), case.slot_length);
        let kinds = [
            ("1 slot", slots == 1),
            ("2 slots", slots == 2),
            ("3 to 99 slots", (3..100).contains(&slots)),
            ("100 to 16383 slots", (100..16_384).contains(&slots)),
            ("16384 slots", slots == 16_384),
            ("length 1", length == 1),
            ("length 2 to 47", (2..48).contains(&length)),
            ("length 48", length == 48),
            ("length 49 to 4799", (49..4_800).contains(&length)),
            ("length 4800", length == 4_800),
        ];
        count(&mut counts, kinds);
    }
    assert_shares(&counts, SEEDS as usize, 50);
}

#[test]
fn rows_and_slot_lengths_outside_the_limits() {
    let mut counts = Counts::new();
    for case in cases() {
        let (slots, length) = (case.row.len(), case.slot_length);
        let has_row = (1..=16_384).contains(&slots);
        let has_length = (1..=4_800).contains(&length);
        let has_length_cut = (1..=4_800).contains(&(length as u32));
        let kinds = [
            ("0 slots", slots == 0),
            ("16385 slots", slots == 16_385),
            ("length 0", length == 0),
            ("length 4801", length == 4_801),
            ("length 2^32", length == 1 << 32),
            ("length 2^63", length == 1 << 63),
            ("within when cut", !has_length && has_length_cut),
            ("the row alone", !has_row && has_length),
            ("the length alone", has_row && !has_length),
            ("both", !has_row && !has_length),
        ];
        count(&mut counts, kinds);
    }
    assert_shares(&counts, SEEDS as usize, 400);
}

#[test]
fn contents_of_every_kind() {
    let (mut counts, mut all) = (Counts::new(), 0);
    for case in cases_within_limits() {
        let row = &case.row;
        let (sum, largest) = (sum(row), u64::from(*row.iter().max().unwrap()));
        let is_near = (MOST - 8..=MOST).contains(&largest);
        let kinds = [
            ("cleared", sum == 0),
            ("small", sum > 0 && largest < 1 << 16),
            (
                "one nearly full",
                is_near && sum == largest && row.len() > 1,
            ),
            ("a little below", (MOST - 8..MOST).contains(&sum)),
            (
                "below, yet near",
                (MOST - (1 << 25)..MOST - 8).contains(&sum),
            ),
            ("at the border", sum == MOST),
            ("one above", sum == MOST + 1),
            ("a little above", (MOST + 2..=MOST + 8).contains(&sum)),
            ("far above", sum > 2 * MOST),
            ("all full", row.len() > 1 && sum == row.len() as u64 * MOST),
            ("spread at the border", sum == MOST && largest < MOST / 2),
            ("no recording", case.times.is_empty()),
            ("one recording", case.times.len() == 1),
            ("a hundred recordings", case.times.len() >= 100),
        ];
        count(&mut counts, kinds);
        all += 1;
    }
    assert_shares(&counts, all, 100);
}

/// Calls `see` with each recording of a case within the limits, the row before it, the
/// answer before it, if there was one, and its own.
fn each_recording(mut see: impl FnMut(&Case, &[u32], (u32, u32), (Option<u8>, u8))) {
    for case in cases_within_limits() {
        let mut row = case.row.clone();
        let mut earlier = None;
        for (&time, &energy) in case.times.iter().zip(&case.energies) {
            let before = row.clone();
            let answer = match second::record(case.slot_length, time, energy, &mut row) {
                Ok(()) => 0,
                Err(refusal) => refusal.number(),
            };
            see(&case, &before, (time, energy), (earlier, answer));
            earlier = Some(answer);
        }
    }
}

#[test]
fn times_of_every_kind() {
    let (mut counts, mut all) = (Counts::new(), 0);
    each_recording(|case, row, (time, _), _| {
        let (time, length) = (u64::from(time), case.slot_length);
        let span = row.len() as u64 * length;
        let in_slot = time % length;
        let kinds = [
            ("within the row", time < span),
            ("a slot's first", time < span && in_slot == 0),
            ("a slot's last", time < span && in_slot == length - 1),
            (
                "amid a slot",
                time < span && (1..length - 1).contains(&in_slot),
            ),
            ("the row's first", time == 0),
            ("in the last slot", (span - length..span).contains(&time)),
            ("the row's last", time == span - 1),
            ("just past the row", time == span),
            ("a slot past the row", (span..span + length).contains(&time)),
            ("2^32 - 1", time == MOST),
            ("far behind", (1 << 28..MOST).contains(&time)),
        ];
        count(&mut counts, kinds);
        all += 1;
    });
    assert_shares(&counts, all, 70);
}

#[test]
fn energies_of_every_kind() {
    let (mut counts, mut all) = (Counts::new(), 0);
    each_recording(|_, row, (_, energy), (_, answer)| {
        let (energy, sum) = (u64::from(energy), sum(row));
        let is_last = energy > 0 && sum + energy == MOST;
        let is_one_more = sum < MOST && sum + energy == MOST + 1;
        let kinds = [
            ("0", energy == 0),
            ("1", energy == 1),
            ("2^24", energy == 1 << 24),
            ("2^32 - 1", energy == MOST),
            ("other", energy > 1 && energy != 1 << 24 && energy != MOST),
            ("to the border", is_last && answer == 0),
            ("one past the border", is_one_more && answer == 15),
            ("0 at the border", energy == 0 && sum == MOST),
            ("1 at the border", energy == 1 && sum == MOST),
            ("0 above", energy == 0 && sum > MOST),
            ("less than is left", energy > 0 && sum + energy < MOST),
            ("more than is left", sum <= MOST && sum + energy > MOST),
        ];
        count(&mut counts, kinds);
        all += 1;
    });
    assert_shares(&counts, all, 200);
}

#[test]
fn answers_of_every_kind() {
    let (mut counts, mut all) = (Counts::new(), 0);
    each_recording(|case, row, (time, energy), (earlier, answer)| {
        let is_past = u64::from(time) / case.slot_length >= row.len() as u64;
        let is_too_much = sum(row) + u64::from(energy) > MOST;
        let kinds = [
            ("recorded", answer == 0),
            ("14", answer == 14),
            ("15", answer == 15),
            ("14 and 15 apply", is_past && is_too_much),
            ("recorded after a refusal", answer == 0 && earlier > Some(0)),
            (
                "refused after a recording",
                answer > 0 && earlier == Some(0),
            ),
        ];
        count(&mut counts, kinds);
        all += 1;
    });
    assert_shares(&counts, all, 20);
    assert!(3 * counts["recorded"] > all);
    assert!(10 * counts["14"] > all);
    assert!(5 * counts["15"] > all);
}
