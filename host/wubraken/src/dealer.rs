//! The dealer over a pool.

use crate::{answer, raw, Pool, Refusal, Shape, Step, Worker};

/// Deals turns, going round among the workers, for a host without a scheduler of its own.
///
/// It remembers the worker that it served last, and nothing else. The next turn goes to
/// the first worker after that one, going round, that has a call in progress. So a
/// worker whose call stays in progress is served within as many dealt turns as the shape
/// has workers, whatever calls begin meanwhile. When the call ends is another matter.
/// (In damaged memory a record out of range that is to be served stops it there, by 3.)
///
/// Calls begin by [`Pool::enqueue`] and [`Pool::dequeue`], at any time. A dealer belongs
/// to no pool: hand it the same one each time.
///
/// ```
/// use wubraken::{Arrival, Dealer, Pool, Refusal, Shape, Step};
///
/// let shape = Shape { workers: 3, nodes: 100, buckets: 16, width: 48 };
/// let mut pool = Pool::new(shape)?;
/// let mut dealer = Dealer::new(shape);
///
/// let arrival = Arrival { time: 5, path: 7, order: 1, distance: 3 };
/// pool.enqueue(0, arrival)?;
/// pool.dequeue(2)?;
/// // One turn each, and worker 1 is idle.
/// assert_eq!(dealer.deal(&mut pool)?.worker, 0);
/// assert_eq!(dealer.deal(&mut pool)?.worker, 2);
///
/// // Until a call has ended: the put, in its fifth turn.
/// let dealt = dealer.run(&mut pool, u64::MAX)?;
/// assert_eq!((dealt.worker, dealt.turns, dealt.step), (0, 7, Ok(Step::Stored(1))));
/// while let Ok(Step::On) = dealer.deal(&mut pool)?.step {}
/// assert_eq!(dealer.deal(&mut pool), Err(Refusal::AllIdle));
/// # Ok::<(), Refusal>(())
/// ```
#[derive(Clone, Debug, PartialEq, Eq, Hash)]
pub struct Dealer {
    served: u64,
}

/// What dealt turns led to.
#[derive(Clone, Copy, Debug, PartialEq, Eq, Hash)]
#[must_use]
pub struct Dealt {
    /// The worker that was served last; of a run of 0 turns, the one that the dealer
    /// remembers.
    pub worker: u64,
    /// How many turns were dealt, one that was refused by 11 among them.
    pub turns: u64,
    /// What the last of them led to. [`Refusal::Exhausted`]: it was refused, and changed
    /// nothing in the pool. Another refusal is of the turn that would have come next, and
    /// only in damaged memory.
    pub step: Result<Step, Refusal>,
}

impl Dealer {
    /// A new dealer remembers the shape's last worker: worker 0 comes next.
    pub fn new(shape: Shape) -> Self {
        // SAFETY: numbers only.
        Self::resume(unsafe { raw::wubraken_new_dealer(shape) })
    }

    /// A dealer that has served this worker last. One that the shape does not have is
    /// refused by 4, at each turn.
    ///
    /// ```
    /// # use wubraken::{Dealer, Pool, Refusal, Shape};
    /// # let shape = Shape { workers: 3, nodes: 100, buckets: 16, width: 48 };
    /// let mut pool = Pool::new(shape)?;
    /// pool.dequeue(0)?;
    /// pool.dequeue(2)?;
    /// assert_eq!(Dealer::resume(1).deal(&mut pool)?.worker, 2);
    /// assert_eq!(Dealer::resume(3).deal(&mut pool), Err(Refusal::NoWorker));
    /// # Ok::<(), Refusal>(())
    /// ```
    pub fn resume(served: u64) -> Self {
        Self { served }
    }

    /// The worker served last.
    #[inline]
    pub fn served(&self) -> u64 {
        self.served
    }

    /// Deals one turn: whose it was, and what it led to. Or refusal 1 to 4, or 16 where
    /// no call is in progress: then there was no turn, and dealer and pool are as they
    /// were.
    ///
    /// Where no epoch is left a put can not end, and its turns are refused by 11. They
    /// are dealt all the same, and the others get theirs.
    #[inline]
    pub fn deal<S, T>(&mut self, pool: &mut Pool<S, T>) -> Result<Dealt, Refusal>
    where
        S: AsMut<[u64]>,
        T: AsMut<[Worker]>,
    {
        self.run(pool, 1)
    }

    /// Deals at most so many turns, until one ends a call or is refused: as
    /// [`Dealer::deal`] does one by one, and faster. A refusal of the first is the answer
    /// (1 to 4, 16); of a later one it is in [`Dealt::step`]. 0 turns are [`Step::On`],
    /// whatever there is. `u64::MAX` is as good as no limit, in memory that grew from an
    /// opening; in other memory a list may lead in a circle.
    ///
    /// ```
    /// # use wubraken::{Dealer, Pool, Shape, Step};
    /// # let shape = Shape { workers: 3, nodes: 100, buckets: 1, width: 48 };
    /// let mut pool = Pool::new(shape)?;
    /// let mut dealer = Dealer::new(shape);
    /// pool.dequeue(1)?;
    /// pool.dequeue(2)?;
    /// assert_eq!(dealer.run(&mut pool, 3)?.step, Ok(Step::On));
    /// assert_eq!(dealer.served(), 1);
    /// let dealt = dealer.run(&mut pool, u64::MAX)?;
    /// assert_eq!((dealt.worker, dealt.turns, dealt.step), (1, 2, Ok(Step::Empty)));
    /// # Ok::<(), wubraken::Refusal>(())
    /// ```
    #[inline]
    pub fn run<S, T>(&mut self, pool: &mut Pool<S, T>, turns: u64) -> Result<Dealt, Refusal>
    where
        S: AsMut<[u64]>,
        T: AsMut<[Worker]>,
    {
        let dealt = pool.deal(self.served, turns);
        self.served = dealt.dealer;
        match (dealt.turns, answer::stepped(&dealt.answer)) {
            (0, Err(refusal)) => Err(refusal),
            (turns, step) => Ok(Dealt {
                worker: dealt.dealer,
                turns,
                step,
            }),
        }
    }
}
