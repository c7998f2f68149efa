//! What is measured of a row, twice: by the library, as C calls it, and by the second
//! program. Answers, every slot, every place and the guards are compared.

use wubraken::raw::{
    wubraken_decay_curve, wubraken_early_decay, wubraken_level, wubraken_t20, Measured,
};

use super::both_rows::by_number;
use super::guarded::Guarded;

const GUARD: u32 = 0xDEAD_BEEF;
/// What stands in a place before there is a level.
pub const UNTOUCHED: u16 = 0xA5A5;

/// The same row lent to both.
pub struct BothDecays {
    row: Guarded<u32>,
    second: Vec<u32>,
}

impl BothDecays {
    pub fn new(row: &[u32]) -> Self {
        Self {
            row: Guarded::new(row, GUARD),
            second: row.to_vec(),
        }
    }

    pub fn slots(&self) -> usize {
        self.second.len()
    }

    pub fn early_decay(&self) -> Measured {
        let row = self.lent();
        // SAFETY: a slice.
        let measured = unsafe { wubraken_early_decay(row.as_ptr(), row.len()) };
        self.compare(measured, second::early_decay(&self.second))
    }

    pub fn t20(&self) -> Measured {
        let row = self.lent();
        // SAFETY: a slice.
        let measured = unsafe { wubraken_t20(row.as_ptr(), row.len()) };
        self.compare(measured, second::t20(&self.second))
    }

    pub fn level(&self, slot: u64) -> Measured {
        let row = self.lent();
        // SAFETY: a slice.
        let measured = unsafe { wubraken_level(slot, row.as_ptr(), row.len()) };
        let expected = second::level(&self.second, slot);
        let stored = |level: Option<u16>| u64::from(level.unwrap_or(second::NO_LEVEL));
        self.compare(measured, expected.map(stored))
    }

    /// A curve in a buffer of so many places: the answer, and the places.
    pub fn decay_curve(&self, places: usize) -> (u64, Vec<u16>) {
        let mut expected_levels = vec![UNTOUCHED; places];
        let expected = second::decay_curve(&self.second, &mut expected_levels);
        let mut levels = Guarded::new(&vec![UNTOUCHED; places], !UNTOUCHED);
        let number = curve(self.lent(), levels.lent());
        assert_eq!(number, by_number(expected), "{places} places");
        assert!(levels.contents() == expected_levels, "the curves differ");
        assert!(self.lent() == self.second, "the row was written");
        (number, expected_levels)
    }

    /// The row, as the library has it.
    fn lent(&self) -> &[u32] {
        self.row.contents()
    }

    /// The value is 0 where there is a refusal.
    fn compare(&self, measured: Measured, expected: Result<u64, second::Refusal>) -> Measured {
        let expected = Measured {
            number: by_number(expected.map(drop)),
            value: expected.unwrap_or(0),
        };
        assert_eq!(measured, expected);
        assert!(self.lent() == self.second, "the row was written");
        measured
    }
}

/// As C makes it.
pub fn curve(row: &[u32], levels: &mut [u16]) -> u64 {
    let (places, levels) = (levels.len(), levels.as_mut_ptr());
    // SAFETY: slices that lie apart.
    unsafe { wubraken_decay_curve(row.as_ptr(), row.len(), levels, places) }
}
