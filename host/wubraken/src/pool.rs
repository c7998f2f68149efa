//! The pool over its memory.

use crate::raw;
use crate::{answer, Arrival, BatchEnd, Put, Refusal, Shape, Step, Take, Worker};

/// After so many no call can begin.
const MOST_CALLS: u64 = u32::MAX as u64;

/// A pool: its shape, a store of words and a table of workers' records.
///
/// It owns its memory, or borrows it (`&mut [u64]`, `&mut [Worker]`), and so has
/// it to itself. A start or turn therefore looks only at what it needs, and a turn
/// costs the same at every shape; [`Pool::audit`] looks at all.
///
/// The pool tests what it is handed by itself, at every call; the wrapper tests
/// nothing. A call asks `S` and `T` once for a slice and works on that one, so an
/// `AsMut` that answers another slice at every call does no harm: the call then
/// speaks of the memory it got.
#[derive(Clone, Debug)]
pub struct Pool<S = Vec<u64>, T = Vec<Worker>> {
    shape: Shape,
    store: S,
    table: T,
}

impl Pool {
    /// An open pool with memory of its own; or refusal 1, and [`Shape::check`] says
    /// of which field.
    ///
    /// ```
    /// use wubraken::{Pool, Refusal, Shape};
    ///
    /// let shape = Shape { workers: 2, nodes: 100, buckets: 16, width: 48 };
    /// assert!(Pool::new(shape).is_ok());
    ///
    /// let none = Shape { nodes: u64::MAX, ..shape };
    /// assert_eq!(Pool::new(none).unwrap_err(), Refusal::BadShape);
    /// ```
    pub fn new(shape: Shape) -> Result<Self, Refusal> {
        let words = shape.words().ok_or(Refusal::BadShape)?;
        let table = vec![Worker::default(); shape.workers as usize];
        Self::open(shape, vec![0; words], table)
    }
}

impl<S, T> Pool<S, T> {
    /// Memory as it is, whatever it holds. Audit what comes from elsewhere first
    /// ([`Pool::audit`]): the calls notice only what they look at. No memory makes
    /// them unsafe, but on damaged memory they may answer nonsense, and never end.
    ///
    /// ```
    /// use wubraken::{Pool, Refusal, Shape, Worker};
    ///
    /// let shape = Shape { workers: 1, nodes: 1, buckets: 1, width: 1 };
    /// let mut pool = Pool::resume(shape, [u64::MAX; 12], [Worker::default()]);
    /// assert_eq!(pool.audit(), Err(Refusal::OutOfRange));
    /// assert_eq!(pool.reopen(shape), Ok(()));
    /// assert_eq!(pool.audit(), Ok(()));
    /// ```
    pub fn resume(shape: Shape, store: S, table: T) -> Self {
        Self {
            shape,
            store,
            table,
        }
    }

    /// The shape it was opened with last.
    #[inline]
    pub fn shape(&self) -> Shape {
        self.shape
    }

    /// The memory back.
    pub fn into_parts(self) -> (S, T) {
        (self.store, self.table)
    }
}

impl<S: AsRef<[u64]>, T> Pool<S, T> {
    /// The words, laid out as `wubraken.h` says.
    #[inline]
    pub fn store(&self) -> &[u64] {
        self.store.as_ref()
    }

    /// How many calls can still begin before [`Refusal::Exhausted`]; an opening
    /// gives them back.
    ///
    /// ```
    /// # use wubraken::{Pool, Shape};
    /// # let shape = Shape { workers: 2, nodes: 100, buckets: 16, width: 48 };
    /// let mut pool = Pool::new(shape)?;
    /// assert_eq!(pool.calls_left(), 4_294_967_295);
    /// pool.dequeue(0)?;
    /// assert_eq!(pool.calls_left(), 4_294_967_294);
    /// # Ok::<(), wubraken::Refusal>(())
    /// ```
    #[inline]
    pub fn calls_left(&self) -> u64 {
        let begun = self.store().get(1);
        begun.map_or(0, |&begun| MOST_CALLS.saturating_sub(begun))
    }
}

impl<S, T: AsRef<[Worker]>> Pool<S, T> {
    /// The workers' records.
    #[inline]
    pub fn table(&self) -> &[Worker] {
        self.table.as_ref()
    }

    /// Whether a worker has a call in progress; one that there is not has none.
    #[inline]
    pub fn in_progress(&self, worker: u64) -> bool {
        let record = self.table().get(worker as usize);
        worker < self.shape.workers && record.map_or(false, |record| record.stage != 0)
    }
}

/// Calls the library on the memory of a pool.
macro_rules! call {
    ($pool:ident, $function:ident($($argument:expr),+)) => {{
        let (store, table) = ($pool.store.as_mut(), $pool.table.as_mut());
        let (words, records) = (store.len(), table.len());
        let (store, table) = (store.as_mut_ptr(), table.as_mut_ptr());
        // SAFETY: pointers and lengths of slices, borrowed for the call.
        unsafe { raw::$function($($argument,)+ store, words, table, records) }
    }};
}

impl<S: AsMut<[u64]>, T: AsMut<[Worker]>> Pool<S, T> {
    /// Opens a pool in lent memory, whatever that held. Memory handed over by
    /// value is gone on a refusal (1 or 2); what is borrowed stays with its owner.
    ///
    /// ```
    /// use wubraken::{Pool, Refusal, Shape, Worker};
    ///
    /// let shape = Shape { workers: 1, nodes: 4, buckets: 2, width: 10 };
    /// let mut store = [7; 100];
    /// let mut table = [Worker::default(); 1];
    ///
    /// let two = Shape { workers: 2, ..shape };
    /// let refused = Pool::open(two, &mut store, &mut table).map(|_| ());
    /// assert_eq!(refused, Err(Refusal::TooShort));
    ///
    /// let mut pool = Pool::open(shape, &mut store, &mut table)?;
    /// assert_eq!(pool.dequeue(0)?, 1);
    /// # Ok::<(), Refusal>(())
    /// ```
    pub fn open(shape: Shape, store: S, table: T) -> Result<Self, Refusal> {
        let mut pool = Self::resume(shape, store, table);
        pool.reopen(shape)?;
        Ok(pool)
    }

    /// Empties the pool and gives it a shape, in the memory it has. A refusal
    /// (1 or 2) leaves everything as it was.
    pub fn reopen(&mut self, shape: Shape) -> Result<(), Refusal> {
        answer::opened(&call!(self, wubraken_open(shape)))?;
        self.shape = shape;
        Ok(())
    }

    /// Looks at every word and every record, once, and changes nothing: whether
    /// the shape is within its limits (or refusal 1), the memory long enough (2) and
    /// every field in its range (3).
    ///
    /// For memory that came from elsewhere; what only the pool has written to since
    /// its opening is in order. Lists are not walked: in memory that no pool has left
    /// they may lead in a circle, and a call needs a limit.
    pub fn audit(&mut self) -> Result<(), Refusal> {
        // Refused by 4 exactly where 1 to 3 do not apply.
        let nobody = self.shape.workers;
        answer::audited(&call!(self, wubraken_step(self.shape, nobody)))
    }

    /// A worker begins to put an arrival in: the call's ticket, or refusal 1 to
    /// 5, 9, 11 or 12. It goes on by [`Pool::step`] or [`Pool::run`].
    #[inline]
    pub fn enqueue(&mut self, worker: u64, arrival: Arrival) -> Result<u64, Refusal> {
        let start = call!(
            self,
            wubraken_narrow_enqueue(self.shape, worker, arrival, 0)
        );
        answer::begun(&start)
    }

    /// A worker begins to take the earliest arrival out: the call's ticket, or
    /// refusal 1 to 4, 9 or 11. It goes on by [`Pool::step`] or [`Pool::run`].
    #[inline]
    pub fn dequeue(&mut self, worker: u64) -> Result<u64, Refusal> {
        answer::begun(&call!(self, wubraken_narrow_dequeue(self.shape, worker, 0)))
    }

    /// A worker's call goes on by one turn, one shared word: what that led to, or
    /// refusal 1 to 4, 10 or 11.
    #[inline]
    pub fn step(&mut self, worker: u64) -> Result<Step, Refusal> {
        answer::stepped(&call!(self, wubraken_narrow_step(self.shape, worker, 0)))
    }

    /// A worker's call goes on by at most so many turns, until it has ended: what
    /// the last of them led to, or refusal 1 to 4, 10 or 11 of the next. The same as
    /// so many [`Pool::step`], and faster. 0 turns are [`Step::On`], whatever there is.
    ///
    /// ```
    /// # use wubraken::{Pool, Shape, Step};
    /// # let shape = Shape { workers: 2, nodes: 100, buckets: 16, width: 48 };
    /// let mut pool = Pool::new(shape)?;
    /// pool.dequeue(0)?;
    /// assert_eq!(pool.run(0, 10)?, Step::On);
    /// assert_eq!(pool.run(0, u64::MAX)?, Step::Empty);
    /// # Ok::<(), wubraken::Refusal>(())
    /// ```
    #[inline]
    pub fn run(&mut self, worker: u64, turns: u64) -> Result<Step, Refusal> {
        match turns.checked_sub(1) {
            None => Ok(Step::On),
            Some(more) => {
                let last = call!(self, wubraken_narrow_step(self.shape, worker, more));
                answer::stepped(&last)
            }
        }
    }

    /// A worker puts an arrival in: [`Pool::enqueue`], then [`Pool::run`] by at most
    /// so many turns; `u64::MAX` is as good as no limit, in memory that grew from an
    /// opening (in other memory a list may lead in a circle). A limit that is used up
    /// leaves the call in progress.
    ///
    /// A start that is refused (1 to 5, 9, 11 or 12) has begun nothing. A turn behind
    /// it can be refused too: by 11, where no epoch is left, or by 3 in damaged
    /// memory. Then the call stays in progress; [`Pool::in_progress`] tells which.
    ///
    /// ```
    /// use wubraken::{Arrival, Pool, Put, Shape, Step};
    ///
    /// let shape = Shape { workers: 2, nodes: 100, buckets: 16, width: 48 };
    /// let mut pool = Pool::new(shape)?;
    /// let arrival = Arrival { time: 5, path: 7, order: 1, distance: 3 };
    /// assert_eq!(pool.put(0, arrival, u64::MAX)?, Put::Stored(1));
    ///
    /// // In parts, with calls of other workers in between.
    /// assert_eq!(pool.put(0, arrival, 3)?, Put::InProgress);
    /// assert_eq!(pool.put(1, arrival, u64::MAX)?, Put::Stored(3));
    /// assert_eq!(pool.run(0, u64::MAX)?, Step::Stored(2));
    /// # Ok::<(), wubraken::Refusal>(())
    /// ```
    #[inline]
    pub fn put(&mut self, worker: u64, arrival: Arrival, turns: u64) -> Result<Put, Refusal> {
        let last = call!(
            self,
            wubraken_narrow_enqueue(self.shape, worker, arrival, turns)
        );
        answer::put(&last)
    }

    /// A worker takes the earliest arrival out ([`Arrival`] says which that is):
    /// [`Pool::dequeue`], then [`Pool::run`] by at most so many turns; `u64::MAX` is as
    /// good as no limit. A limit that is used up leaves the call in progress.
    ///
    /// Workers whose calls overlap may get arrivals out of order: docs/READING.md
    /// says which, and what else the order of answers tells.
    ///
    /// Refusals 1 to 4, 9 and 11 are of the start, and nothing has begun. A turn is
    /// refused only by 3, in damaged memory, and leaves the call in progress.
    #[inline]
    pub fn take(&mut self, worker: u64, turns: u64) -> Result<Take, Refusal> {
        answer::take(&call!(
            self,
            wubraken_narrow_dequeue(self.shape, worker, turns)
        ))
    }

    /// Deals at most so many turns, behind the worker served last.
    #[inline]
    pub(crate) fn deal(&mut self, served: u64, turns: u64) -> raw::Dealt {
        call!(self, wubraken_narrow_deal(self.shape, served, turns))
    }

    /// Works through the records of a turn file and writes one line a record, as
    /// the whole calls of [`raw`](crate::raw) would answer them. The memory is looked through once, not
    /// once a record. An opening among the records changes the pool's shape.
    ///
    /// A batch may end before its input does, or inside a record; `examples/batches.rs`
    /// has the loop around that.
    ///
    /// ```
    /// use wubraken::{Pool, Refusal, Shape, Stop, Worker};
    ///
    /// let mut pool = Pool::resume(Shape::default(), [0; 37], [Worker::default()]);
    /// let mut out = [0; 1024];
    /// let end = pool.run_batch(b"OP\x01\x04\x00\x02\x00\x0A\x00TA\x00TU\x00TU", &mut out);
    /// assert_eq!(&out[..end.written], b"open\nbegun 1\non\n");
    /// assert_eq!((end.read, end.stop), (15, Stop::Halted(Refusal::CutRecord)));
    /// assert_eq!(pool.shape().nodes, 4);
    /// ```
    pub fn run_batch(&mut self, input: &[u8], out: &mut [u8]) -> BatchEnd {
        let (bytes, room) = (input.len(), out.len());
        let (input, out) = (input.as_ptr(), out.as_mut_ptr());
        let end = call!(
            self,
            wubraken_run_batch(self.shape, input, bytes, out, room)
        );
        self.shape = end.shape;
        answer::ended(end)
    }
}
