//! What a call answers.

use crate::memory::Fault;

#[derive(Clone, Copy, Debug)]
pub enum Outcome {
    Stored,
    Replaced(u64),
    Untold,
    Full,
    Worn,
}

#[derive(Clone, Copy, Debug)]
pub enum Report {
    GoneOn(u64),
    TurnedBack(u64),
    Latched(u64),
    Published(u64),
    Posted(u64),
    Unchanged(u64),
    Found { node: u64, value: u64 },
    Absent(u64),
    Ended { node: u64, outcome: Outcome },
    Abandoned { published: bool },
}

impl Report {
    pub fn number(self) -> u64 {
        match self {
            Report::GoneOn(_) => 0,
            Report::TurnedBack(_) => 1,
            Report::Latched(_) => 2,
            Report::Published(_) => 3,
            Report::Posted(_) => 4,
            Report::Unchanged(_) => 5,
            Report::Found { .. } => 6,
            Report::Absent(_) => 7,
            Report::Ended { outcome, .. } => match outcome {
                Outcome::Stored => 8,
                Outcome::Replaced(_) => 9,
                Outcome::Untold => 10,
                Outcome::Full => 11,
                Outcome::Worn => 12,
            },
            Report::Abandoned { published: false } => 13,
            Report::Abandoned { published: true } => 14,
        }
    }

    pub fn node(self) -> u64 {
        match self {
            Report::GoneOn(node)
            | Report::TurnedBack(node)
            | Report::Latched(node)
            | Report::Published(node)
            | Report::Posted(node)
            | Report::Unchanged(node)
            | Report::Absent(node)
            | Report::Found { node, .. }
            | Report::Ended { node, .. } => node,
            Report::Abandoned { .. } => 0,
        }
    }

    pub fn word(self) -> u64 {
        match self {
            Report::Found { value, .. } => value,
            Report::Ended {
                outcome: Outcome::Replaced(old),
                ..
            } => old,
            _ => 0,
        }
    }
}

#[derive(Clone, Copy, Debug)]
pub enum Refusal {
    Unformatted = 21,
    NoSeat,
    Busy,
    NoCell,
    TooWide,
    NoKey,
    Idle,
    Holding,
    Formatted,
    BadFan,
    TooSmall,
}

impl From<Fault> for Refusal {
    fn from(fault: Fault) -> Refusal {
        match fault {
            Fault::NoCell => Refusal::NoCell,
            Fault::TooWide => Refusal::TooWide,
        }
    }
}
