//! The echogram over its row.

use crate::{answer, raw, Refusal, Taken};

/// An echogram: a slot length and a row of slots, to which the energies of taken
/// arrivals are added. A time belongs to slot time / slot length, rounded down.
///
/// It owns its row, or borrows it (`&mut [u32]`), and keeps nothing else. From a
/// clearing on, the sum of the slots is that of the energies recorded. Sums go to
/// 2^32 − 1, of each slot and of all together.
///
/// The library judges what it is handed, at every call; the wrapper leaves that to it. A
/// call asks `R` once for a slice and works on that one.
///
/// ```
/// use wubraken::{Echogram, Refusal};
///
/// // 3 slots of a millisecond.
/// let mut echogram = Echogram::new(3, 48)?;
/// echogram.record(47, 1_864_135)?;
/// echogram.record(48, 256)?;
/// echogram.record(95, 16)?;
/// assert_eq!(echogram.record(144, 16), Err(Refusal::PastRow));
/// assert_eq!(echogram.slots(), [1_864_135, 272, 0]);
/// assert_eq!(echogram.sum(), 1_864_407);
/// # Ok::<(), Refusal>(())
/// ```
#[derive(Clone, Debug)]
pub struct Echogram<R = Vec<u32>> {
    slot_length: u64,
    row: R,
}

impl Echogram {
    /// The most slots.
    pub const MAX_SLOTS: usize = 16_384;
    /// The most samples in a slot.
    pub const MAX_SLOT_LENGTH: u64 = 4_800;

    /// A cleared row of its own, with so many slots; or refusal 13.
    ///
    /// ```
    /// use wubraken::{Echogram, Refusal};
    ///
    /// assert_eq!(Echogram::new(3, 48)?.slots(), [0; 3]);
    /// assert_eq!(Echogram::new(usize::MAX, 48).unwrap_err(), Refusal::BadRow);
    /// # Ok::<(), Refusal>(())
    /// ```
    pub fn new(slots: usize, slot_length: u64) -> Result<Self, Refusal> {
        // A row that is refused need not be there.
        let lent = if slots > Self::MAX_SLOTS { 0 } else { slots };
        Self::open(vec![0; lent], slot_length)
    }
}

impl<R> Echogram<R> {
    /// A row as it is, whatever it holds. One within its limits whose sum is above
    /// 2^32 − 1 takes nothing: each recording is refused by 15, or 14.
    ///
    /// ```
    /// use wubraken::{Echogram, Refusal};
    ///
    /// let mut echogram = Echogram::resume([u32::MAX, 1], 48);
    /// assert_eq!(echogram.record(0, 0), Err(Refusal::SumTooLarge));
    /// assert_eq!(echogram.clear(), Ok(()));
    /// assert_eq!(echogram.record(0, 0), Ok(()));
    /// ```
    pub fn resume(row: R, slot_length: u64) -> Self {
        Self { slot_length, row }
    }

    /// How many samples of time a slot has.
    #[inline]
    pub fn slot_length(&self) -> u64 {
        self.slot_length
    }

    /// The row back.
    pub fn into_row(self) -> R {
        self.row
    }
}

impl<R: AsRef<[u32]>> Echogram<R> {
    /// The slots.
    #[inline]
    pub fn slots(&self) -> &[u32] {
        self.row.as_ref()
    }

    /// The slots added up.
    pub fn sum(&self) -> u64 {
        self.slots().iter().map(|&slot| u64::from(slot)).sum()
    }
}

/// Calls the library on the row of an echogram.
macro_rules! call {
    ($echogram:ident, $function:ident($($argument:expr),*)) => {{
        let row = $echogram.row.as_mut();
        let (slots, row) = (row.len(), row.as_mut_ptr());
        // SAFETY: pointers and lengths of slices, borrowed for the call.
        let number = unsafe { raw::$function($echogram.slot_length, $($argument,)* row, slots) };
        answer::accepted(number)
    }};
}

impl<R: AsMut<[u32]>> Echogram<R> {
    /// Clears a lent row, whatever that held. A row handed over by value is gone on
    /// a refusal (13); what is borrowed stays with its owner.
    ///
    /// ```
    /// use wubraken::{Echogram, Refusal};
    ///
    /// let mut row = [7; 3];
    /// let refused = Echogram::open(&mut row, 0).map(|_| ());
    /// assert_eq!(refused, Err(Refusal::BadRow));
    /// assert_eq!(row, [7; 3]);
    ///
    /// Echogram::open(&mut row, 48)?.record(48, 5)?;
    /// assert_eq!(row, [0, 5, 0]);
    /// # Ok::<(), Refusal>(())
    /// ```
    pub fn open(row: R, slot_length: u64) -> Result<Self, Refusal> {
        let mut echogram = Self::resume(row, slot_length);
        echogram.clear()?;
        Ok(echogram)
    }

    /// Every slot becomes 0. A refusal (13) leaves the row as it was.
    pub fn clear(&mut self) -> Result<(), Refusal> {
        call!(self, wubraken_clear_row())
    }

    /// Adds an energy to the slot of a time, both any numbers; or refusal 13 to 15,
    /// and the row is as it was. It adds up the whole row: for many at once
    /// [`Echogram::record_series`] is faster.
    #[inline]
    pub fn record(&mut self, time: u32, energy: u32) -> Result<(), Refusal> {
        call!(self, wubraken_record(time, energy))
    }

    /// Records a taken arrival: [`Echogram::record`] of its time and energy, as they
    /// stand.
    ///
    /// ```
    /// use wubraken::{Arrival, Echogram, Pool, Shape, Take};
    ///
    /// let mut pool = Pool::new(Shape { workers: 1, nodes: 1, buckets: 1, width: 1 })?;
    /// let arrival = Arrival { time: 50, path: 7, order: 1, distance: 3 };
    /// let _ = pool.put(0, arrival, u64::MAX)?;
    ///
    /// let mut echogram = Echogram::new(3, 48)?;
    /// while let Take::Took(taken) = pool.take(0, u64::MAX)? {
    ///     echogram.record_taken(&taken)?;
    /// }
    /// assert_eq!(echogram.slots(), [0, 1_864_135, 0]);
    /// # Ok::<(), wubraken::Refusal>(())
    /// ```
    #[inline]
    pub fn record_taken(&mut self, taken: &Taken) -> Result<(), Refusal> {
        self.record(taken.time, taken.energy)
    }

    /// A series of recordings, one by one, each as [`Echogram::record`] has it, and
    /// the answer to each: 0, or the number of its refusal, 14 or 15. The row is added
    /// up once.
    ///
    /// The series is refused as a whole by 2, where times, energies and answers are
    /// not equally many, or by 13; then row and answers are as they were.
    ///
    /// ```
    /// use wubraken::{Echogram, Refusal};
    ///
    /// let mut echogram = Echogram::new(3, 48)?;
    /// let mut answers = [0; 4];
    /// echogram.record_series(&[0, 144, 50, 47], &[5, 6, 7, u32::MAX], &mut answers)?;
    /// assert_eq!(answers, [0, 14, 0, 15]);
    /// assert_eq!(echogram.slots(), [5, 7, 0]);
    ///
    /// let refusals = answers.map(|answer| Refusal::from_number(answer.into()));
    /// assert_eq!(refusals[..2], [None, Some(Refusal::PastRow)]);
    /// # Ok::<(), Refusal>(())
    /// ```
    pub fn record_series(
        &mut self,
        times: &[u32],
        energies: &[u32],
        answers: &mut [u8],
    ) -> Result<(), Refusal> {
        let counts = (times.len(), energies.len(), answers.len());
        let (times, energies) = (times.as_ptr(), energies.as_ptr());
        let answers = answers.as_mut_ptr();
        call!(
            self,
            wubraken_record_series(times, counts.0, energies, counts.1, answers, counts.2)
        )
    }
}
