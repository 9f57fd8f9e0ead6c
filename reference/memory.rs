//! Rows of cells: word banks, byte banks, and banks joined in a row.

use crate::call::Refusal;

/// A row has at most so many cells.
pub const MOST_CELLS: u64 = 65_536;

#[derive(Clone, Copy, Debug, PartialEq, Eq)]
pub enum BankKind {
    Word,
    Bytes(usize),
}

enum Bank {
    Words(Vec<u64>),
    Bytes { bytes: Vec<u8>, width: usize },
}

impl Bank {
    /// A bank whose every byte is `fill`.
    fn filled(kind: BankKind, cells: usize, fill: u8) -> Bank {
        match kind {
            BankKind::Word => Bank::Words(vec![u64::from_le_bytes([fill; 8]); cells]),
            BankKind::Bytes(width) => Bank::Bytes {
                bytes: vec![fill; cells * width],
                width,
            },
        }
    }

    fn length(&self) -> u64 {
        let cells = match self {
            Bank::Words(words) => words.len(),
            Bank::Bytes { bytes, width } => bytes.len() / width,
        };
        (cells as u64).min(MOST_CELLS)
    }

    fn top(&self) -> u64 {
        match self {
            Bank::Words(_) => u64::MAX,
            Bank::Bytes { width, .. } => u64::MAX >> (64 - 8 * width),
        }
    }

    fn read(&self, cell: usize) -> u64 {
        match self {
            Bank::Words(words) => words[cell],
            Bank::Bytes { bytes, width } => {
                let mut word = [0; 8];
                word[..*width].copy_from_slice(&bytes[cell * width..][..*width]);
                u64::from_le_bytes(word)
            }
        }
    }

    fn write(&mut self, cell: usize, word: u64) {
        match self {
            Bank::Words(words) => words[cell] = word,
            Bank::Bytes { bytes, width } => {
                bytes[cell * *width..][..*width].copy_from_slice(&word.to_le_bytes()[..*width]);
            }
        }
    }
}

/// One bank, or two in a row.
pub struct Memory {
    first: Bank,
    second: Option<Bank>,
    length: u64,
    top: u64,
}

impl Memory {
    pub fn single(kind: BankKind, cells: usize, fill: u8) -> Memory {
        Memory::of(Bank::filled(kind, cells, fill), None)
    }

    /// The first half of the cells, rounded down, lies in the first bank.
    pub fn joined(kinds: (BankKind, BankKind), cells: usize, fill: u8) -> Memory {
        let half = cells / 2;
        let second = Bank::filled(kinds.1, cells - half, fill);
        Memory::of(Bank::filled(kinds.0, half, fill), Some(second))
    }

    fn of(first: Bank, second: Option<Bank>) -> Memory {
        let (more, other) = second
            .as_ref()
            .map_or((0, u64::MAX), |bank| (bank.length(), bank.top()));
        let length = (first.length() + more).min(MOST_CELLS);
        let top = first.top().min(other);
        Memory {
            first,
            second,
            length,
            top,
        }
    }

    pub fn length(&self) -> u64 {
        self.length
    }

    pub fn top_word(&self) -> u64 {
        self.top
    }

    pub fn read(&self, cell: u64) -> Result<u64, Refusal> {
        if cell >= self.length {
            return Err(Refusal::NoCell);
        }
        let edge = self.first.length();
        match &self.second {
            Some(second) if cell >= edge => Ok(second.read((cell - edge) as usize)),
            _ => Ok(self.first.read(cell as usize)),
        }
    }

    pub fn write(&mut self, cell: u64, word: u64) -> Result<(), Refusal> {
        if cell >= self.length {
            return Err(Refusal::NoCell);
        }
        if word > self.top {
            return Err(Refusal::TooWide);
        }
        let edge = self.first.length();
        match &mut self.second {
            Some(second) if cell >= edge => second.write((cell - edge) as usize, word),
            _ => self.first.write(cell as usize, word),
        }
        Ok(())
    }

    /// Answers the word before, and stores the new one if the old one was expected.
    pub fn swap(&mut self, cell: u64, expected: u64, word: u64) -> Result<u64, Refusal> {
        let held = self.read(cell)?;
        if word > self.top {
            return Err(Refusal::TooWide);
        }
        if held == expected {
            self.write(cell, word)?;
        }
        Ok(held)
    }
}

#[cfg(test)]
mod tests {
    use super::*;

    #[test]
    fn two_byte_cells_are_low_byte_first() {
        let mut memory = Memory::single(BankKind::Bytes(2), 2, 9);
        assert_eq!(memory.read(0), Ok(2_313));
        assert_eq!(memory.write(1, 258), Ok(()));
        match &memory.first {
            Bank::Bytes { bytes, .. } => assert_eq!(bytes, &[9, 9, 2, 1]),
            Bank::Words(_) => panic!("not a byte bank"),
        }
    }

    #[test]
    fn a_joined_memory_has_the_smaller_top() {
        let mut memory = Memory::joined((BankKind::Word, BankKind::Bytes(2)), 5, 0xFF);
        assert_eq!(memory.length(), 5);
        assert_eq!(memory.top_word(), 65_535);
        assert_eq!(memory.read(1), Ok(u64::MAX));
        assert_eq!(memory.read(2), Ok(65_535));
        assert_eq!(memory.swap(0, 0, 65_536), Err(Refusal::TooWide));
        assert_eq!(memory.swap(5, 0, 65_536), Err(Refusal::NoCell));
        assert_eq!(memory.swap(0, u64::MAX, 7), Ok(u64::MAX));
        assert_eq!(memory.read(0), Ok(7));
    }
}
