//! Memories of the twin: a row of cells over the caller's numbers.

/// The most cells that a memory has.
pub const LONGEST: u64 = 65_536;

#[derive(Clone, Copy, Debug, PartialEq, Eq)]
pub enum Fault {
    NoCell,
    TooWide,
}

pub trait Memory {
    fn length(&self) -> u64;
    fn top_word(&self) -> u64;
    fn read(&self, cell: u64) -> Result<u64, Fault>;
    fn write(&mut self, cell: u64, word: u64) -> Result<(), Fault>;

    /// Answers the word before, and stores the new one if the old one was expected.
    fn swap(&mut self, cell: u64, expected: u64, word: u64) -> Result<u64, Fault> {
        let held = self.read(cell)?;
        if word > self.top_word() {
            return Err(Fault::TooWide);
        }
        if held == expected {
            self.write(cell, word)?;
        }
        Ok(held)
    }
}

/// One number a cell.
pub struct WordMemory<'a> {
    words: &'a mut [u64],
}

impl<'a> WordMemory<'a> {
    pub fn new(words: &'a mut [u64]) -> WordMemory<'a> {
        let cells = words.len().min(LONGEST as usize);
        WordMemory {
            words: &mut words[..cells],
        }
    }
}

impl Memory for WordMemory<'_> {
    fn length(&self) -> u64 {
        self.words.len() as u64
    }

    fn top_word(&self) -> u64 {
        u64::MAX
    }

    fn read(&self, cell: u64) -> Result<u64, Fault> {
        self.words.get(cell as usize).copied().ok_or(Fault::NoCell)
    }

    fn write(&mut self, cell: u64, word: u64) -> Result<(), Fault> {
        *self.words.get_mut(cell as usize).ok_or(Fault::NoCell)? = word;
        Ok(())
    }
}
