//! What can be wrong with a call, and what stops a run.

/// The first check of a call that fails.
#[derive(Clone, Copy, Debug, PartialEq, Eq)]
pub enum Refusal {
    HostCount = 1,
    CrashBound = 2,
    UnknownHost = 3,
    UnknownSender = 4,
    UnknownPoint = 5,
    NotWhole = 6,
    HostDown = 7,
    SenderDown = 8,
    NoMessage = 9,
    ReceiptsFull = 10,
    PostsFull = 11,
    NoOutput = 12,
    NoneDown = 13,
    TargetMissed = 14,
}

#[derive(Clone, Copy, Debug, PartialEq, Eq)]
pub enum Stop {
    Open(Refusal),
    TooLong,
    NoOpen,
    UnknownKind,
    BodyCutShort,
    UnknownRules,
    ListingFull,
}

impl Stop {
    pub fn number(self) -> u64 {
        match self {
            Stop::Open(refusal) => refusal as u64,
            Stop::TooLong => 15,
            Stop::NoOpen => 16,
            Stop::UnknownKind => 17,
            Stop::BodyCutShort => 18,
            Stop::UnknownRules => 19,
            Stop::ListingFull => 20,
        }
    }
}

/// A refused open has no line.
impl From<Refusal> for Stop {
    fn from(refusal: Refusal) -> Self {
        Stop::Open(refusal)
    }
}
