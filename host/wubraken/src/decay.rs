//! How the row of an echogram decays.

use crate::{answer, raw, Echogram, Refusal};

impl Echogram {
    /// Stands in a decay curve for the level of a slot that has none.
    pub const NO_LEVEL: u16 = u16::MAX;

    /// The level that stands in a decay curve, if it is one.
    ///
    /// ```
    /// use wubraken::Echogram;
    ///
    /// assert_eq!(Echogram::level_from(0), Some(0));
    /// assert_eq!(Echogram::level_from(Echogram::NO_LEVEL), None);
    /// ```
    #[inline]
    pub fn level_from(stored: u16) -> Option<u16> {
        (stored != Self::NO_LEVEL).then_some(stored)
    }
}

/// What is measured of a row, from its start. R(k) is what slot k and all behind it add up
/// to, 0 past the last. The row is only read. The slot length does not count; what
/// is measured in slots is, times the slot length, in samples.
///
/// Refused are rows outside their limits (13), with a sum above 2^32 − 1 (15), and with
/// no slot but zeros (17).
///
/// ```
/// use wubraken::{Echogram, Refusal};
///
/// // 4 slots of ten milliseconds; R is 1,024, 32, 2, 1.
/// let echogram = Echogram::resume([992, 30, 1, 1], 480);
/// assert_eq!(echogram.early_decay()?, 6);
/// assert_eq!(echogram.t20()?, 3);
///
/// let mut levels = [0; 4];
/// echogram.decay_curve(&mut levels)?;
/// // Tenths of a decibel.
/// assert_eq!(levels, [0, 151, 271, 301]);
/// # Ok::<(), Refusal>(())
/// ```
impl<R: AsRef<[u32]>> Echogram<R> {
    /// Early decay, in slots: 6 times the first k with 10 × R(k) ≤ R(0); or refusal 13,
    /// 15 or 17.
    pub fn early_decay(&self) -> Result<u64, Refusal> {
        let row = self.slots();
        // SAFETY: a slice, only read.
        answer::measured(unsafe { raw::wubraken_early_decay(row.as_ptr(), row.len()) })
    }

    /// T20, in slots: 3 × (b − a), where a is the first slot with 10 × R(a)² ≤ R(0)², and b
    /// the first with 100,000 × R(b)² ≤ R(0)²; or refusal 13, 15 or 17.
    pub fn t20(&self) -> Result<u64, Refusal> {
        let row = self.slots();
        // SAFETY: a slice, only read.
        answer::measured(unsafe { raw::wubraken_t20(row.as_ptr(), row.len()) })
    }

    /// The level of a slot, that is how far R(k) lies below R(0), in tenths of a decibel;
    /// or refusal 13, 15 or 17. It adds up the whole row: for many slots
    /// [`Echogram::decay_curve`] is faster.
    ///
    /// With r = 1,024 × R(k) / R(0), rounded down, it is L(1,024) − L(r), from 0 to 301;
    /// L(r) is the greatest v with 10^v ≤ r^100. For r = 0, and so past the end, there
    /// is none.
    ///
    /// ```
    /// use wubraken::{Echogram, Refusal};
    ///
    /// let echogram = Echogram::resume([924, 100], 480);
    /// assert_eq!(echogram.level(1)?, Some(101));
    /// assert_eq!(echogram.level(2)?, None);
    /// assert_eq!(Echogram::new(2, 480)?.level(1), Err(Refusal::SilentRow));
    /// # Ok::<(), Refusal>(())
    /// ```
    pub fn level(&self, slot: u64) -> Result<Option<u16>, Refusal> {
        let row = self.slots();
        // SAFETY: a slice, only read.
        answer::level(unsafe { raw::wubraken_level(slot, row.as_ptr(), row.len()) })
    }

    /// The levels of all slots, one a place, with [`Echogram::NO_LEVEL`] where there is
    /// none ([`Echogram::level_from`] tells). Places beyond the slots stay. A refusal (13,
    /// 15, 17, or 19: fewer places than slots) leaves all as they were.
    ///
    /// ```
    /// use wubraken::{Echogram, Refusal};
    ///
    /// let echogram = Echogram::resume([2_000, 7, 1], 480);
    /// let mut levels = [9; 5];
    /// echogram.decay_curve(&mut levels)?;
    /// assert_eq!(levels, [0, 241, Echogram::NO_LEVEL, 9, 9]);
    /// assert_eq!(echogram.decay_curve(&mut levels[..2]), Err(Refusal::ShortBuffer));
    /// # Ok::<(), Refusal>(())
    /// ```
    pub fn decay_curve(&self, levels: &mut [u16]) -> Result<(), Refusal> {
        let (row, places) = (self.slots(), levels.len());
        let levels = levels.as_mut_ptr();
        // SAFETY: slices; the one that is written lies apart, as it is borrowed alone.
        let number = unsafe { raw::wubraken_decay_curve(row.as_ptr(), row.len(), levels, places) };
        answer::accepted(number)
    }
}
