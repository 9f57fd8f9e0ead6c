//! Generated tapes, whole and damaged.

use crate::random::Random;
use crate::tape::{Record, MOST_BYTES};

/// The tapes that a seed stands for.
pub struct TapeMaker {
    random: Random,
    made: u64,
}

impl TapeMaker {
    pub fn new(seed: u64) -> TapeMaker {
        TapeMaker {
            random: Random::new(seed),
            made: 0,
        }
    }

    /// The next tape. Every third is damaged.
    pub fn make(&mut self) -> Vec<u8> {
        let mut tape = self.whole();
        self.made += 1;
        if self.made.is_multiple_of(3) {
            self.damage(&mut tape);
        }
        tape
    }

    /// A whole tape of at most 4,096 bytes. Small key spaces make seats meet.
    fn whole(&mut self) -> Vec<u8> {
        let most = self.random.below(MOST_BYTES as u64 + 1) as usize;
        let most = if self.random.below(2) == 0 {
            MOST_BYTES
        } else {
            most
        };
        let keys = 1 + self.random.below(60);
        let seats = 1 + self.random.below(8);
        let mut tape = Vec::new();
        loop {
            let record = self.record(keys, seats);
            if tape.len() + record.size() > most {
                return tape;
            }
            tape.extend(record.to_bytes());
        }
    }

    fn record(&mut self, keys: u64, seats: u64) -> Record {
        let seat = self.seat(seats);
        match self.random.below(40) {
            0..=4 => Record::Find {
                seat,
                key: self.key(keys),
            },
            5..=18 => Record::Put {
                seat,
                key: self.key(keys),
                value: self.random.draw(),
            },
            19 => Record::Abandon { seat },
            _ => Record::Steps {
                seat,
                count: self.count(),
            },
        }
    }

    fn seat(&mut self, seats: u64) -> u8 {
        if self.random.below(100) == 0 {
            self.random.below(256) as u8
        } else {
            self.random.below(seats) as u8
        }
    }

    fn key(&mut self, keys: u64) -> u64 {
        if self.random.below(50) == 0 {
            self.random.draw()
        } else {
            self.random.below(keys) * 10
        }
    }

    fn count(&mut self) -> u16 {
        match self.random.below(8) {
            0 => self.random.below(3) as u16,
            1..=3 => self.random.below(40) as u16,
            4..=5 => self.random.below(250) as u16,
            6 => 300,
            _ => self.random.below(65_536) as u16,
        }
    }

    fn damage(&mut self, tape: &mut Vec<u8>) {
        let starts = starts(tape);
        let start = starts[self.random.below(starts.len() as u64) as usize];
        match self.random.below(7) {
            0 => tape.truncate(self.random.below(tape.len() as u64 + 1) as usize),
            1 => self.overwrite(tape, start + 2),
            2 => self.overwrite(tape, start),
            3 => self.end_with_short(tape, start),
            4 => self.change_bytes(tape),
            5 => self.add_bytes(tape, 4),
            _ => self.lengthen(tape),
        }
    }

    /// Gives a length or a kind another value, mostly a small one.
    fn overwrite(&mut self, tape: &mut [u8], at: usize) {
        let limit = if self.random.below(4) == 0 {
            65_536
        } else {
            24
        };
        let new = self.random.below(limit) as u16;
        if let Some(place) = tape.get_mut(at..at + 2) {
            place.copy_from_slice(&new.to_le_bytes());
        }
    }

    /// Ends the tape at a record's start with one whose length says 0, 1 or 2, and whose kind may be none.
    fn end_with_short(&mut self, tape: &mut Vec<u8>, start: usize) {
        tape.truncate(start);
        let length = self.random.below(3) as u8;
        let kind = self.random.below(6) as u8;
        tape.extend([length, 0, kind, 0]);
        self.add_bytes(tape, 3);
    }

    fn change_bytes(&mut self, tape: &mut [u8]) {
        if tape.is_empty() {
            return;
        }
        for _ in 0..1 + self.random.below(4) {
            let at = self.random.below(tape.len() as u64) as usize;
            tape[at] = self.random.below(256) as u8;
        }
    }

    fn add_bytes(&mut self, tape: &mut Vec<u8>, most: u64) {
        for _ in 0..self.random.below(most + 1) {
            tape.push(self.random.below(256) as u8);
        }
    }

    /// Fills a tape up to 4,096 bytes, or to one or more above.
    fn lengthen(&mut self, tape: &mut Vec<u8>) {
        let more = self.random.below(3) * (1 + self.random.below(300));
        let idle = Record::Abandon { seat: 0 }.to_bytes();
        let missing = MOST_BYTES + more as usize - tape.len();
        tape.extend(idle.iter().cycle().take(missing));
    }
}

/// Where the records of a whole tape start, and where it ends.
fn starts(tape: &[u8]) -> Vec<usize> {
    let mut starts = vec![0];
    let mut at = 0;
    while let Ok(record) = Record::parse(&tape[at..]) {
        at += record.size();
        starts.push(at);
    }
    starts
}

#[cfg(test)]
mod tests {
    use super::*;
    use crate::tape::play;
    use crate::tape_text::{decode, encode};

    #[test]
    fn any_tape_is_played_and_shown() {
        let mut maker = TapeMaker::new(7);
        for _ in 0..200 {
            let tape = maker.make();
            play(&tape);
            assert_eq!(encode(&decode(&tape)).unwrap(), tape);
        }
    }
}
