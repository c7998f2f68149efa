//! Echograms by hand: slots and sums at their borders, the order of refusals, and what
//! the wrapper itself promises.

use wubraken::{Echogram, Refusal, Taken};

const MAX: u32 = u32::MAX;

/// The slot that gets the energy, or the refusal.
fn slot_of(slots: usize, slot_length: u64, time: u32) -> Result<usize, Refusal> {
    let mut echogram = Echogram::new(slots, slot_length)?;
    echogram.record(time, 9)?;
    assert_eq!(echogram.sum(), 9);
    Ok(echogram.slots().iter().position(|&slot| slot == 9).unwrap())
}

/// 4,800 × 16,384 is 78,643,200.
#[test]
fn slots_of_times() {
    let past = Err(Refusal::PastRow);
    for (slots, slot_length, time, slot) in [
        (3, 48, 0, Ok(0)),
        (3, 48, 47, Ok(0)),
        (3, 48, 48, Ok(1)),
        (3, 48, 143, Ok(2)),
        (3, 48, 144, past),
        (3, 48, MAX, past),
        (1, 1, 0, Ok(0)),
        (1, 1, 1, past),
        (16_384, 1, 16_383, Ok(16_383)),
        (16_384, 1, 16_384, past),
        (1, 4_800, 4_799, Ok(0)),
        (1, 4_800, 4_800, past),
        (16_384, 4_800, 4_799, Ok(0)),
        (16_384, 4_800, 78_638_399, Ok(16_382)),
        (16_384, 4_800, 78_638_400, Ok(16_383)),
        (16_384, 4_800, 78_643_199, Ok(16_383)),
        (16_384, 4_800, 78_643_200, past),
        (16_384, 4_800, MAX, past),
    ] {
        let got = slot_of(slots, slot_length, time);
        assert_eq!(got, slot, "{slots} of {slot_length}: {time}");
    }
}

/// The first sample and the last of every slot, at every slot length: to slot k they
/// bring k + 1 each. The next sample is past the row.
#[test]
fn every_border_of_every_slot_length() {
    let slots = Echogram::MAX_SLOTS as u32;
    let mut energies: Vec<u32> = (1..=slots).flat_map(|energy| [energy; 2]).collect();
    energies.push(1);
    let (mut row, mut answers) = (vec![0; slots as usize], vec![0; energies.len()]);
    for slot_length in 1..=Echogram::MAX_SLOT_LENGTH as u32 {
        let borders = |slot| [slot * slot_length, (slot + 1) * slot_length - 1];
        let mut times: Vec<u32> = (0..slots).flat_map(borders).collect();
        times.push(slots * slot_length);
        let mut echogram = Echogram::open(&mut row, slot_length.into()).unwrap();
        assert_eq!(
            echogram.record_series(&times, &energies, &mut answers),
            Ok(())
        );
        assert!(
            (1..).zip(&row).all(|(slot, &energy)| energy == 2 * slot),
            "{slot_length}"
        );
        let past = answers.iter().position(|&answer| answer != 0);
        assert_eq!(past, Some(answers.len() - 1), "{slot_length}");
        assert_eq!(answers[answers.len() - 1], 14);
    }
}

/// The same of single recordings, in rows of three slots.
#[test]
fn borders_of_single_recordings() {
    for slot_length in 1..=Echogram::MAX_SLOT_LENGTH as u32 {
        let mut echogram = Echogram::new(3, slot_length.into()).unwrap();
        for slot in 0..3 {
            for time in [slot * slot_length, (slot + 1) * slot_length - 1] {
                assert_eq!(echogram.record(time, slot + 1), Ok(()), "{slot_length}");
            }
        }
        assert_eq!(echogram.record(3 * slot_length, 1), Err(Refusal::PastRow));
        assert_eq!(echogram.record(MAX, 1), Err(Refusal::PastRow));
        assert_eq!(echogram.slots(), [2, 4, 6], "{slot_length}");
    }
}

/// A recording by itself and in a series; the row is then `after`.
fn check(row: [u32; 3], time: u32, energy: u32, expected: Result<(), Refusal>, after: [u32; 3]) {
    let mut echogram = Echogram::resume(row, 48);
    assert_eq!(echogram.record(time, energy), expected, "{row:?} {energy}");
    assert_eq!(echogram.into_row(), after);

    let (mut echogram, mut answers) = (Echogram::resume(row, 48), [9]);
    assert_eq!(
        echogram.record_series(&[time], &[energy], &mut answers),
        Ok(())
    );
    let number = expected.map_or_else(Refusal::number, |()| 0);
    assert_eq!(u64::from(answers[0]), number, "{row:?} {energy}");
    assert_eq!(echogram.into_row(), after);
}

#[test]
fn sums_at_their_border() {
    let too_large = Err(Refusal::SumTooLarge);
    // The slot, and with it the sum.
    check([0, 0, 0], 0, MAX, Ok(()), [MAX, 0, 0]);
    check([1, 0, 0], 0, MAX - 1, Ok(()), [MAX, 0, 0]);
    check([1, 0, 0], 0, MAX, too_large, [1, 0, 0]);
    check([MAX, 0, 0], 0, 0, Ok(()), [MAX, 0, 0]);
    check([MAX, 0, 0], 0, 1, too_large, [MAX, 0, 0]);
    // The sum alone.
    check([0, 2, MAX - 5], 0, 3, Ok(()), [3, 2, MAX - 5]);
    check([0, 2, MAX - 5], 0, 4, too_large, [0, 2, MAX - 5]);
    check([0, 1, MAX - 1], 0, 0, Ok(()), [0, 1, MAX - 1]);
    // A row that no recordings have left takes nothing.
    check([0, 1, MAX], 0, 0, too_large, [0, 1, MAX]);
    check([MAX; 3], 0, 0, too_large, [MAX; 3]);
    // In 32 bits this sum is 2.
    check([MAX, 3, 0], 96, 1, too_large, [MAX, 3, 0]);
    // 14 comes first.
    check([MAX; 3], 144, 1, Err(Refusal::PastRow), [MAX; 3]);
}

/// 13 comes first, and is all that clearing is refused by. No row within its limits
/// reaches the last time; one slot of the most has no room, and several are above it.
#[test]
fn rows_and_slot_lengths_at_their_limits() {
    let wide = 1 << 32;
    for slots in [0, 1, 16_384, 16_385, 40_000] {
        for slot_length in [0, 1, 4_800, 4_801, wide, wide | 1, 1 << 63 | 48, u64::MAX] {
            let is_within = (1..=16_384).contains(&slots) && (1..=4_800).contains(&slot_length);
            let or_outside = |answer| {
                if is_within {
                    answer
                } else {
                    Err(Refusal::BadRow)
                }
            };
            let row = vec![MAX; slots];
            let mut echogram = Echogram::resume(row.clone(), slot_length);
            let past = or_outside(Err(Refusal::PastRow));
            let too_large = or_outside(Err(Refusal::SumTooLarge));
            assert_eq!(echogram.record(MAX, 1), past);
            assert_eq!(echogram.record(0, 1), too_large);
            let mut answers = [9; 2];
            let series = echogram.record_series(&[MAX, 0], &[1, 1], &mut answers);
            assert_eq!(series, or_outside(Ok(())));
            assert_eq!(answers, if is_within { [14, 15] } else { [9; 2] });
            assert_eq!(echogram.slots(), row);
            assert_eq!(echogram.clear(), or_outside(Ok(())));
            let left = if is_within { 0 } else { MAX };
            assert_eq!(echogram.slots(), vec![left; slots]);
        }
    }
}

/// Each of them with the row that those before have left.
#[test]
fn a_series_goes_on_after_a_refusal() {
    let mut echogram = Echogram::new(3, 48).unwrap();
    let times = [0, 144, 48, 0, 143, 96, 1, 2];
    let energies = [MAX - 9, 1, 5, 5, 4, 1, 0, MAX];
    let mut answers = [9; 8];
    assert_eq!(
        echogram.record_series(&times, &energies, &mut answers),
        Ok(())
    );
    assert_eq!(answers, [0, 14, 0, 15, 0, 15, 0, 15]);
    assert_eq!(echogram.slots(), [MAX - 9, 5, 4]);
    assert_eq!(echogram.record_series(&[], &[], &mut []), Ok(()));
    assert_eq!(echogram.sum(), MAX.into());
}

#[test]
fn a_new_echogram_is_cleared() {
    let echogram = Echogram::new(5, 48).unwrap();
    assert_eq!(
        (echogram.slots(), echogram.slot_length()),
        (&[0; 5][..], 48)
    );
    assert_eq!(echogram.sum(), 0);
    let longest = Echogram::new(Echogram::MAX_SLOTS, Echogram::MAX_SLOT_LENGTH).unwrap();
    assert_eq!(longest.into_row(), vec![0; 16_384]);
}

/// Those of 2^40 slots and more there would be no memory for.
#[test]
fn a_new_echogram_of_absurd_size_lends_nothing() {
    for slots in [0, 16_385, 1 << 40, 1 << 62, usize::MAX] {
        assert_eq!(Echogram::new(slots, 48).unwrap_err(), Refusal::BadRow);
    }
    for slot_length in [0, 4_801, u64::MAX] {
        assert_eq!(Echogram::new(3, slot_length).unwrap_err(), Refusal::BadRow);
    }
}

#[test]
fn rows_owned_boxed_or_borrowed() {
    fn record<R: AsMut<[u32]>>(row: R) -> R {
        let mut echogram = Echogram::open(row, 48).unwrap();
        assert_eq!(echogram.record(50, 6), Ok(()));
        echogram.into_row()
    }
    assert_eq!(record(vec![7; 3]), [0, 6, 0]);
    assert_eq!(record([7; 3]), [0, 6, 0]);
    assert_eq!(record(vec![7; 3].into_boxed_slice())[..], [0, 6, 0]);
    let mut lent = [7; 5];
    assert_eq!(record(&mut lent[1..4]), [0, 6, 0]);
    assert_eq!(lent, [7, 0, 6, 0, 7]);
}

/// A row as it is, with a sum of more than 32 bits; a refused clearing leaves it.
#[test]
fn a_row_from_elsewhere() {
    let mut row = [MAX; 3];
    let mut echogram = Echogram::resume(&mut row[..], 4_801);
    assert_eq!(echogram.sum(), 12_884_901_885);
    assert_eq!(echogram.clear(), Err(Refusal::BadRow));
    assert_eq!(
        Echogram::open(&mut row[..0], 48).unwrap_err(),
        Refusal::BadRow
    );
    assert_eq!(row, [MAX; 3]);
    assert_eq!(Echogram::resume(&mut row[..], 48).clear(), Ok(()));
    assert_eq!(row, [0; 3]);
}

/// Its time and its energy; distance and the rest do not count.
#[test]
fn a_taken_arrival_as_it_stands() {
    let taken = Taken {
        time: 50,
        path: MAX,
        order: MAX,
        distance: 0,
        energy: MAX - 1,
    };
    let mut echogram = Echogram::new(2, 48).unwrap();
    assert_eq!(echogram.record_taken(&taken), Ok(()));
    assert_eq!(echogram.record_taken(&taken), Err(Refusal::SumTooLarge));
    assert_eq!(echogram.slots(), [0, MAX - 1]);
    let late = Taken { time: MAX, ..taken };
    assert_eq!(echogram.record_taken(&late), Err(Refusal::PastRow));
}

/// Lends its parts in turn.
struct Fickle {
    row: Vec<u32>,
    asked: usize,
}

impl AsMut<[u32]> for Fickle {
    fn as_mut(&mut self) -> &mut [u32] {
        self.asked += 1;
        let length = self.asked % (self.row.len() + 1);
        &mut self.row[..length]
    }
}

/// Each call speaks of the slice it got, and stays inside it.
#[test]
fn a_row_of_another_length_at_every_call() {
    let row = Fickle {
        row: vec![0; 3],
        asked: 0,
    };
    let mut echogram = Echogram::resume(row, 48);
    // 1, 2, 3 and 0 slots.
    let past = Err(Refusal::PastRow);
    for expected in [past, past, Ok(()), Err(Refusal::BadRow), past, past, Ok(())] {
        assert_eq!(echogram.record(96, 5), expected);
    }
    let mut series = |times: &[u32]| {
        let mut answers = vec![0; times.len()];
        let answered = echogram.record_series(times, times, &mut answers);
        answered.map(|()| answers)
    };
    assert_eq!(series(&[1]), Err(Refusal::BadRow));
    assert_eq!(series(&[1, 48]), Ok(vec![0, 14]));
    assert_eq!(series(&[1, 48]), Ok(vec![0, 0]));
    assert_eq!(echogram.clear(), Ok(()));
    let Fickle { row, asked } = echogram.into_row();
    assert_eq!((row, asked), (vec![0; 3], 11));
}

#[test]
fn an_echogram_may_move_between_threads() {
    let mut echogram = Echogram::new(2, 48).unwrap();
    let echogram = std::thread::spawn(move || {
        assert_eq!(echogram.record(0, 5), Ok(()));
        echogram
    });
    assert_eq!(echogram.join().unwrap().slots(), [5, 0]);
}
