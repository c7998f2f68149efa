//! What a call answers.

/// An answer of the document: a response, or the reason for refusing.
pub type Answer = Result<Response, Refusal>;

/// The answers that are no refusals.
#[derive(Clone, Copy, Debug, PartialEq, Eq)]
pub enum Response {
    Open,
    /// A call has started, with this ticket.
    Begun(u64),
    /// The call goes on.
    On,
    /// The enqueue with this ticket has ended.
    Stored(u64),
    /// The dequeue has ended with an arrival.
    Took {
        time: u64,
        path: u64,
        order: u64,
        distance: u64,
        energy: u32,
    },
    /// The dequeue has ended without one.
    Empty,
}

/// Why a call is refused, by the document's numbers.
#[derive(Clone, Copy, Debug, PartialEq, Eq, PartialOrd, Ord)]
#[repr(u8)]
pub enum Refusal {
    ShapeOutsideLimits = 1,
    MemoryTooShort = 2,
    FieldOutOfRange = 3,
    NoSuchWorker = 4,
    ArrivalOutOfRange = 5,
    // 6 is not given since Q-1.
    UnknownMark = 7,
    RecordCut = 8,
    WorkerBusy = 9,
    WorkerIdle = 10,
    CountExhausted = 11,
    NoFreeNode = 12,
    EchogramOutsideLimits = 13,
    SlotPastRow = 14,
    SumTooLarge = 15,
    AllIdle = 16,
    SilentRow = 17,
    // 18 is not given.
    BufferTooShort = 19,
}

impl Refusal {
    pub fn number(self) -> u8 {
        self as u8
    }
}
