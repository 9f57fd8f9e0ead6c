//! Calls of the index, and what they answer.

/// A call, with any numbers a caller may give.
#[derive(Clone, Copy, Debug, PartialEq, Eq)]
pub enum Call {
    Format { fan: u64 },
    Find { seat: u64, key: u64 },
    Put { seat: u64, key: u64, value: u64 },
    Step { seat: u64 },
    Abandon { seat: u64 },
}

/// What an accepted call tells.
#[derive(Clone, Copy, Debug, PartialEq, Eq)]
pub enum Kind {
    GoneOn = 0,
    TurnedBack = 1,
    Latched = 2,
    Published = 3,
    Posted = 4,
    Unchanged = 5,
    Found = 6,
    Absent = 7,
    Stored = 8,
    Replaced = 9,
    StoredUntold = 10,
    Full = 11,
    Worn = 12,
    AbandonedUnpublished = 13,
    AbandonedPublished = 14,
}

#[derive(Clone, Copy, Debug, PartialEq, Eq)]
pub struct Report {
    pub kind: Kind,
    pub node: u64,
    pub word: u64,
}

impl Report {
    /// A report with node 0 and word 0.
    pub fn plain(kind: Kind) -> Report {
        Report::at(kind, 0)
    }

    /// A report at a node, with word 0.
    pub fn at(kind: Kind, node: u64) -> Report {
        Report {
            kind,
            node,
            word: 0,
        }
    }
}

#[derive(Clone, Copy, Debug, PartialEq, Eq)]
pub enum Refusal {
    Unformatted = 21,
    NoSeat = 22,
    Busy = 23,
    NoCell = 24,
    TooWide = 25,
    NoKey = 26,
    Idle = 27,
    Holding = 28,
    Formatted = 29,
    BadFan = 30,
    TooSmall = 31,
}

pub type Answer = Result<Report, Refusal>;

/// The three numbers of an answer.
#[derive(Clone, Copy, Debug, PartialEq, Eq)]
pub struct Told {
    pub number: u64,
    pub node: u64,
    pub word: u64,
}

impl Told {
    /// An event with a number below 21 is accepted.
    pub fn accepted(self) -> bool {
        self.number < 21
    }

    /// True for a report that leaves its seat idle, and for a refusal.
    pub fn stops(self) -> bool {
        self.number >= 6
    }
}

pub fn told(answer: &Answer) -> Told {
    match answer {
        Ok(report) => Told {
            number: report.kind as u64,
            node: report.node,
            word: report.word,
        },
        Err(refusal) => Told {
            number: *refusal as u64,
            node: 0,
            word: 0,
        },
    }
}
