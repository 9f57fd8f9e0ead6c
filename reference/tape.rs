//! Tapes: binary records of calls, and playing them.

use std::fmt;

use crate::call::{told, Call, Told};
use crate::index::Index;
use crate::memory::{BankKind, Memory};
use crate::order::Order;

/// A longer tape is not played.
pub const MOST_BYTES: usize = 4_096;
const CELLS: usize = 512;
const FAN: u64 = 3;

#[derive(Clone, Copy, Debug, PartialEq, Eq)]
pub enum Record {
    Find { seat: u8, key: u64 },
    Put { seat: u8, key: u64, value: u64 },
    Steps { seat: u8, count: u16 },
    Abandon { seat: u8 },
}

#[derive(Clone, Copy, Debug, PartialEq, Eq)]
pub enum Fault {
    TooLong = 32,
    CutShort = 33,
    NoKind = 34,
    WrongLength = 35,
}

impl Record {
    pub fn kind(self) -> u16 {
        match self {
            Record::Find { .. } => 1,
            Record::Put { .. } => 2,
            Record::Steps { .. } => 3,
            Record::Abandon { .. } => 4,
        }
    }

    pub fn to_bytes(self) -> Vec<u8> {
        let mut body = self.kind().to_le_bytes().to_vec();
        match self {
            Record::Find { seat, key } => {
                body.push(seat);
                body.extend(key.to_le_bytes());
            }
            Record::Put { seat, key, value } => {
                body.push(seat);
                body.extend(key.to_le_bytes());
                body.extend(value.to_le_bytes());
            }
            Record::Steps { seat, count } => {
                body.push(seat);
                body.extend(count.to_le_bytes());
            }
            Record::Abandon { seat } => body.push(seat),
        }
        let mut bytes = (body.len() as u16).to_le_bytes().to_vec();
        bytes.extend(body);
        bytes
    }

    /// The record at the start of what is left of a tape, which is not empty.
    pub fn parse(left: &[u8]) -> Result<Record, Fault> {
        let &[low, high, kind_low, kind_high, ..] = left else {
            return Err(Fault::CutShort);
        };
        let length = usize::from(u16::from_le_bytes([low, high]));
        let kind = u16::from_le_bytes([kind_low, kind_high]);
        if left.len() - 2 < length {
            return Err(Fault::CutShort);
        }
        let due = length_of(kind).ok_or(Fault::NoKind)?;
        if length != due {
            return Err(Fault::WrongLength);
        }
        Ok(Record::of(kind, &left[4..2 + length]))
    }

    /// The record of a kind from 1 to 4, from fields of that kind's length.
    fn of(kind: u16, fields: &[u8]) -> Record {
        let seat = fields[0];
        match kind {
            1 => Record::Find {
                seat,
                key: number(&fields[1..]),
            },
            2 => Record::Put {
                seat,
                key: number(&fields[1..9]),
                value: number(&fields[9..]),
            },
            3 => Record::Steps {
                seat,
                count: number(&fields[1..]) as u16,
            },
            _ => Record::Abandon { seat },
        }
    }

    /// How many bytes the record takes on the tape.
    pub fn size(self) -> usize {
        self.to_bytes().len()
    }
}

/// The length that a record of a kind says.
fn length_of(kind: u16) -> Option<usize> {
    match kind {
        1 => Some(11),
        2 => Some(19),
        3 => Some(5),
        4 => Some(3),
        _ => None,
    }
}

fn number(bytes: &[u8]) -> u64 {
    bytes
        .iter()
        .rev()
        .fold(0, |number, &byte| number << 8 | u64::from(byte))
}

/// A line of what playing a tape prints.
#[derive(Clone, Copy, Debug, PartialEq, Eq)]
pub struct Line {
    kind: u64,
    told: Told,
    steps: u64,
}

impl Line {
    fn fault(fault: Fault, offset: usize) -> Line {
        Line {
            kind: 0,
            told: Told {
                number: fault as u64,
                node: 0,
                word: 0,
            },
            steps: offset as u64,
        }
    }
}

impl fmt::Display for Line {
    fn fmt(&self, out: &mut fmt::Formatter) -> fmt::Result {
        let Told { number, node, word } = self.told;
        write!(out, "{} {number} {node} {word} {}", self.kind, self.steps)
    }
}

/// Plays a tape on a fresh index, and answers its lines.
pub fn play(tape: &[u8]) -> Vec<Line> {
    if tape.len() > MOST_BYTES {
        return vec![Line::fault(Fault::TooLong, 0)];
    }
    let mut index = Index::new(Memory::single(BankKind::Word, CELLS, 0), Order::Number);
    // A fresh index of 512 cells takes this format.
    let _ = index.call(Call::Format { fan: FAN });
    let mut lines = Vec::new();
    let mut offset = 0;
    while offset < tape.len() {
        match Record::parse(&tape[offset..]) {
            Ok(record) => {
                lines.push(play_record(&mut index, record));
                offset += record.size();
            }
            Err(fault) => {
                lines.push(Line::fault(fault, offset));
                break;
            }
        }
    }
    lines
}

fn play_record(index: &mut Index, record: Record) -> Line {
    let mut make = |call| told(&index.call(call));
    let (told, steps) = match record {
        Record::Find { seat, key } => (
            make(Call::Find {
                seat: seat.into(),
                key,
            }),
            0,
        ),
        Record::Put { seat, key, value } => (
            make(Call::Put {
                seat: seat.into(),
                key,
                value,
            }),
            0,
        ),
        Record::Steps { seat, count } => play_steps(index, seat, count),
        Record::Abandon { seat } => (make(Call::Abandon { seat: seat.into() }), 0),
    };
    Line {
        kind: record.kind().into(),
        told,
        steps,
    }
}

/// The last answer, and the number of accepted steps.
fn play_steps(index: &mut Index, seat: u8, count: u16) -> (Told, u64) {
    let mut last = Told {
        number: 0,
        node: 0,
        word: 0,
    };
    let mut accepted = 0;
    for _ in 0..count {
        last = told(&index.call(Call::Step { seat: seat.into() }));
        accepted += u64::from(last.accepted());
        if last.stops() {
            break;
        }
    }
    (last, accepted)
}

#[cfg(test)]
mod tests {
    use super::*;

    fn lines(tape: &[u8]) -> Vec<String> {
        play(tape).iter().map(Line::to_string).collect()
    }

    fn tape(records: &[Record]) -> Vec<u8> {
        records
            .iter()
            .flat_map(|record| record.to_bytes())
            .collect()
    }

    #[test]
    fn the_example() {
        let bytes = tape(&[
            Record::Put {
                seat: 0,
                key: 5,
                value: 9,
            },
            Record::Steps {
                seat: 0,
                count: 100,
            },
            Record::Find { seat: 1, key: 5 },
            Record::Steps {
                seat: 1,
                count: 100,
            },
            Record::Abandon { seat: 1 },
        ]);
        let first = [
            0x13, 0, 2, 0, 0, 5, 0, 0, 0, 0, 0, 0, 0, 9, 0, 0, 0, 0, 0, 0, 0, 5, 0, 3, 0, 0, 0x64,
            0,
        ];
        assert_eq!(bytes[..28], first);
        assert_eq!(
            lines(&bytes),
            [
                "2 0 0 0 0",
                "3 8 0 0 67",
                "1 0 0 0 0",
                "3 6 0 9 33",
                "4 27 0 0 0"
            ]
        );
    }

    #[test]
    fn faults() {
        assert_eq!(lines(&[]), Vec::<String>::new());
        assert_eq!(lines(&[0; 4_097]), ["0 32 0 0 0"]);
        assert_eq!(lines(&[3, 0, 4]), ["0 33 0 0 0"]);
        assert_eq!(lines(&[3, 0, 4, 0]), ["0 33 0 0 0"]);
        assert_eq!(lines(&[9, 0, 9, 0, 1]), ["0 33 0 0 0"]);
        assert_eq!(lines(&[0, 0, 9, 0]), ["0 34 0 0 0"]);
        assert_eq!(lines(&[1, 0, 4, 0]), ["0 35 0 0 0"]);
        assert_eq!(lines(&[2, 0, 4, 0]), ["0 35 0 0 0"]);
        assert_eq!(lines(&[3, 0, 4, 0, 9, 3]), ["4 22 0 0 0", "0 33 0 0 5"]);
    }

    #[test]
    fn no_steps_report_nothing() {
        assert_eq!(
            lines(&tape(&[Record::Steps { seat: 0, count: 0 }])),
            ["3 0 0 0 0"]
        );
        assert_eq!(
            lines(&tape(&[Record::Steps { seat: 0, count: 1 }])),
            ["3 27 0 0 0"]
        );
    }
}
