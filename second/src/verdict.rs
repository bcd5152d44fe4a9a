//! The verdict numbers: how a search ends, and why a call or a file is refused.

/// How a search ends that is not refused.
#[derive(Clone, Copy, Debug, PartialEq, Eq)]
pub enum Ending {
    Found = 0,
    None = 13,
    Stopped = 14,
}

/// Why a call or a file is refused.
#[derive(Clone, Copy, Debug, PartialEq, Eq)]
pub enum Refusal {
    TaskCount = 1,
    Cores = 2,
    Period = 3,
    Deadline = 4,
    Work = 5,
    Offset = 6,
    Rate = 7,
    TableLength = 8,
    Engine = 9,
    Buffer = 10,
    NotValid = 11,
    Spoilt = 12,
    PastTick = 15,
    FileLength = 20,
    Digits = 21,
    UnknownKind = 22,
    FrameLength = 23,
    OutOfPlace = 24,
}
