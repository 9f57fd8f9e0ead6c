//! Scenario lines.

use crate::memory::{BankKind, Memory, MOST_CELLS};
use crate::order::Order;

/// What every byte of a memory is before the first call.
const FIRST_BYTE: u8 = 0xA5;
const MOST_DIGITS: usize = 18;

#[derive(Clone, Copy, Debug, PartialEq, Eq)]
pub enum MemoryKind {
    Single(BankKind),
    Joined(BankKind, BankKind),
}

#[derive(Clone, Copy, Debug, PartialEq, Eq)]
pub enum Mode {
    Mixed,
    Burst,
    Worn,
    Tired,
}

#[derive(Clone, Debug, PartialEq, Eq)]
pub struct Scenario {
    pub memory: MemoryKind,
    pub order: Order,
    pub fan: u64,
    pub cells: u64,
    pub seed: u64,
    pub rounds: u64,
    pub keys: u64,
    pub mode: Mode,
}

impl Scenario {
    /// The scenario of a line's words, if they are one.
    fn parse(words: &[&[u8]]) -> Option<Scenario> {
        let &[memory, order, fan, cells, seed, rounds, keys, mode] = words else {
            return None;
        };
        let scenario = Scenario {
            memory: parse_memory(memory)?,
            order: parse_order(order)?,
            fan: parse_number(fan)?,
            cells: parse_number(cells)?,
            seed: parse_number(seed)?,
            rounds: parse_number(rounds)?,
            keys: parse_number(keys)?,
            mode: parse_mode(mode)?,
        };
        (scenario.cells <= MOST_CELLS && scenario.keys > 0).then_some(scenario)
    }

    pub fn make_memory(&self) -> Memory {
        let cells = self.cells as usize;
        match self.memory {
            MemoryKind::Single(kind) => Memory::single(kind, cells, FIRST_BYTE),
            MemoryKind::Joined(first, second) => Memory::joined((first, second), cells, FIRST_BYTE),
        }
    }
}

/// The lines that are no comments and not empty. A line that is no scenario is `None`.
pub fn parse_all(input: &[u8]) -> Vec<Option<Scenario>> {
    input
        .split(|&byte| byte == b'\n')
        .map(words)
        .filter(|words| words.first().is_some_and(|word| word[0] != b'#'))
        .map(|words| Scenario::parse(&words))
        .collect()
}

fn words(line: &[u8]) -> Vec<&[u8]> {
    line.split(|&byte| byte <= 32)
        .filter(|word| !word.is_empty())
        .collect()
}

fn parse_number(word: &[u8]) -> Option<u64> {
    let is_number = word.len() <= MOST_DIGITS && word.iter().all(u8::is_ascii_digit);
    is_number.then(|| {
        word.iter()
            .fold(0, |number, digit| number * 10 + u64::from(digit - b'0'))
    })
}

fn parse_memory(word: &[u8]) -> Option<MemoryKind> {
    use BankKind::{Bytes, Word};
    Some(match word {
        b"word" => MemoryKind::Single(Word),
        b"byte2" => MemoryKind::Single(Bytes(2)),
        b"byte4" => MemoryKind::Single(Bytes(4)),
        b"byte8" => MemoryKind::Single(Bytes(8)),
        b"word+byte2" => MemoryKind::Joined(Word, Bytes(2)),
        b"byte4+word" => MemoryKind::Joined(Bytes(4), Word),
        b"byte2+byte8" => MemoryKind::Joined(Bytes(2), Bytes(8)),
        _ => return None,
    })
}

fn parse_order(word: &[u8]) -> Option<Order> {
    Some(match word {
        b"number" => Order::Number,
        b"lane" => Order::Lane,
        b"label" => Order::Label,
        _ => return None,
    })
}

fn parse_mode(word: &[u8]) -> Option<Mode> {
    Some(match word {
        b"mixed" => Mode::Mixed,
        b"burst" => Mode::Burst,
        b"worn" => Mode::Worn,
        b"tired" => Mode::Tired,
        _ => return None,
    })
}

#[cfg(test)]
mod tests {
    use super::*;

    #[test]
    fn comments_and_empty_lines_are_skipped() {
        let text =
            b"# one\n\n \t\nword lane 3 64 1 2 3 mixed\r\n  # two\nbyte3 lane 3 64 1 2 3 mixed";
        let lines = parse_all(text);
        assert_eq!(lines.len(), 2);
        let first = lines[0].as_ref().unwrap();
        assert_eq!((first.order, first.cells, first.keys), (Order::Lane, 64, 3));
        assert_eq!(lines[1], None);
    }

    #[test]
    fn bad_lines() {
        for line in [
            "word number 3 65537 1 1 1 mixed",
            "word number 3 64 1 1 0 mixed",
            "word number 3 64 -1 1 1 mixed",
            "word number 3 64 1000000000000000000 1 1 mixed",
            "word number 3 64 1 1 1 mixed more",
            "word number 3 64 1 1 1",
            "word number 3 64 1 1 1 Mixed",
        ] {
            assert_eq!(parse_all(line.as_bytes()), [None], "{line}");
        }
    }
}
