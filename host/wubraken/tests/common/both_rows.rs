//! A call of an echogram made twice: of the library, as C makes it, and of the second
//! program. Answers, every slot and the guards are compared.

use std::sync::atomic::{AtomicU64, Ordering};

use wubraken::raw::{wubraken_clear_row, wubraken_record, wubraken_record_series};

use super::guarded::Guarded;

const GUARD: u32 = 0xDEAD_BEEF;
/// What stands for an answer before there is one.
pub const UNANSWERED: u8 = 0xA5;

static RECORDINGS: AtomicU64 = AtomicU64::new(0);

/// Recordings made by this test program so far.
pub fn recordings_made() -> u64 {
    RECORDINGS.load(Ordering::Relaxed)
}

/// The same row lent to both.
#[derive(Clone)]
pub struct BothRows {
    slot_length: u64,
    row: Guarded<u32>,
    second: Vec<u32>,
}

impl BothRows {
    pub fn new(slot_length: u64, row: &[u32]) -> Self {
        Self {
            slot_length,
            row: Guarded::new(row, GUARD),
            second: row.to_vec(),
        }
    }

    /// The row, as the library has it.
    pub fn slots(&self) -> &[u32] {
        self.row.contents()
    }

    pub fn clear(&mut self) -> u64 {
        let row = self.row.lent();
        // SAFETY: a slice.
        let number = unsafe { wubraken_clear_row(self.slot_length, row.as_mut_ptr(), row.len()) };
        let expected = second::clear_row(self.slot_length, &mut self.second);
        assert_eq!(number, by_number(expected));
        self.compare();
        number
    }

    pub fn record(&mut self, time: u32, energy: u32) -> u64 {
        RECORDINGS.fetch_add(1, Ordering::Relaxed);
        let (slot_length, row) = (self.slot_length, self.row.lent());
        let (slots, row) = (row.len(), row.as_mut_ptr());
        // SAFETY: a slice.
        let number = unsafe { wubraken_record(slot_length, time, energy, row, slots) };
        let expected = second::record(slot_length, time, energy, &mut self.second);
        assert_eq!(number, by_number(expected), "{time} {energy}");
        self.compare();
        number
    }

    /// A series into room for so many answers: what it answers, and the answers.
    pub fn record_series(
        &mut self,
        times: &[u32],
        energies: &[u32],
        room: usize,
    ) -> (u64, Vec<u8>) {
        RECORDINGS.fetch_add(times.len() as u64, Ordering::Relaxed);
        let mut expected_answers = vec![UNANSWERED; room];
        let expected = second::record_series(
            self.slot_length,
            times,
            energies,
            &mut expected_answers,
            &mut self.second,
        );
        let mut lent_times = Guarded::new(times, GUARD);
        let mut lent_energies = Guarded::new(energies, GUARD);
        let mut answers = Guarded::new(&vec![UNANSWERED; room], !UNANSWERED);
        let number = series(
            self.slot_length,
            lent_times.lent(),
            lent_energies.lent(),
            answers.lent(),
            self.row.lent(),
        );
        assert_eq!(number, by_number(expected));
        assert!(answers.contents() == expected_answers, "the answers differ");
        assert!(lent_times.contents() == times && lent_energies.contents() == energies);
        self.compare();
        (number, expected_answers)
    }

    fn compare(&self) {
        assert!(self.row.contents() == self.second, "the rows differ");
    }
}

/// As C makes it.
pub fn series(
    slot_length: u64,
    times: &[u32],
    energies: &[u32],
    answers: &mut [u8],
    row: &mut [u32],
) -> u64 {
    // SAFETY: slices; those that are written lie apart from all others.
    unsafe {
        wubraken_record_series(
            slot_length,
            times.as_ptr(),
            times.len(),
            energies.as_ptr(),
            energies.len(),
            answers.as_mut_ptr(),
            answers.len(),
            row.as_mut_ptr(),
            row.len(),
        )
    }
}

/// 0, or the refusal's number.
pub fn by_number(answer: Result<(), second::Refusal>) -> u64 {
    answer.map_or_else(|refusal| refusal.number().into(), |()| 0)
}
