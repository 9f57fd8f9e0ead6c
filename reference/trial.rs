//! Runs a scenario: draws calls, makes them, and tallies the answers.

use crate::call::{told, Answer, Call, Told};
use crate::digest::Digest;
use crate::index::Index;
use crate::order::Order;
use crate::random::Random;
use crate::scenario::{Mode, Scenario};

/// No seat is driven for more steps than this.
const MOST_STEPS: u64 = 1_000;
/// How many rounds of wear come first in the mode `tired`.
const TIRED_ROUNDS: u64 = 32_760;
const NUMBERS: usize = 32;

const ODD_WORDS: [u64; 8] = [
    65_535,
    65_536,
    4_294_967_295,
    4_294_967_296,
    1_099_511_627_775,
    1_099_511_627_776,
    256,
    u64::MAX,
];

/// Somebody who sees each call with its answer, and may object.
pub trait Witness {
    fn see(&mut self, call: Call, answer: &Answer) -> Result<(), String>;
}

/// A witness who never objects.
pub struct Nobody;

impl Witness for Nobody {
    fn see(&mut self, _: Call, _: &Answer) -> Result<(), String> {
        Ok(())
    }
}

/// How often each number came, and the digest of all answers.
pub struct Tally {
    pub counts: [u64; NUMBERS],
    digest: Digest,
}

impl Tally {
    fn new() -> Tally {
        Tally {
            counts: [0; NUMBERS],
            digest: Digest::new(),
        }
    }

    fn count(&mut self, told: Told) {
        self.counts[told.number as usize] += 1;
        for number in [told.number, told.node, told.word] {
            self.digest.add(number);
        }
    }

    fn add_cells(&mut self, index: &Index) {
        let memory = index.memory();
        for cell in 0..memory.length() {
            // A cell below the length is never refused.
            self.digest.add(memory.read(cell).unwrap_or(0));
        }
    }

    /// The line that is printed for a scenario.
    pub fn line(&self, number: usize) -> String {
        let counts: String = (0..NUMBERS)
            .filter(|&at| self.counts[at] > 0)
            .map(|at| format!(" {}:{}", at, self.counts[at]))
            .collect();
        format!("{number}{counts} digest {}", self.digest.value())
    }
}

/// What a run leaves.
pub struct Outcome {
    pub index: Index,
    pub tally: Tally,
}

/// Makes all calls of a scenario before a witness.
pub fn run<W: Witness>(scenario: &Scenario, witness: &mut W) -> Result<Outcome, String> {
    let mut run = Run {
        scenario,
        index: Index::new(scenario.make_memory(), scenario.order),
        random: Random::new(scenario.seed),
        tally: Tally::new(),
        witness,
    };
    run.open()?;
    match scenario.mode {
        Mode::Mixed => run.mixed(scenario.rounds)?,
        Mode::Burst => run.burst(scenario.rounds)?,
        Mode::Worn => run.worn(scenario.rounds)?,
        Mode::Tired => {
            run.worn(TIRED_ROUNDS)?;
            run.mixed(scenario.rounds)?;
        }
    }
    let Run {
        index, mut tally, ..
    } = run;
    tally.add_cells(&index);
    Ok(Outcome { index, tally })
}

struct Run<'a, W: Witness> {
    scenario: &'a Scenario,
    index: Index,
    random: Random,
    tally: Tally,
    witness: &'a mut W,
}

/// What a round draws.
struct Draws {
    action: u64,
    seat: u64,
    key: u64,
    value: u64,
}

impl Draws {
    fn choice(&self) -> u64 {
        self.action & 1023
    }

    /// For how many steps a burst drives its seat.
    fn steps(&self) -> u64 {
        if (self.action >> 32) & 3 == 0 {
            (self.action >> 34) & 255
        } else {
            MOST_STEPS
        }
    }

    fn find(&self) -> Call {
        Call::Find {
            seat: self.seat,
            key: self.key,
        }
    }

    fn put(&self) -> Call {
        Call::Put {
            seat: self.seat,
            key: self.key,
            value: self.value,
        }
    }
}

impl<W: Witness> Run<'_, W> {
    fn call(&mut self, call: Call) -> Result<Told, String> {
        let answer = self.index.call(call);
        let told = told(&answer);
        self.tally.count(told);
        self.witness.see(call, &answer)?;
        Ok(told)
    }

    fn top(&self) -> u64 {
        self.index.memory().top_word()
    }

    /// The first seven calls.
    fn open(&mut self) -> Result<(), String> {
        for call in [
            Call::Find { seat: 0, key: 0 },
            Call::Put {
                seat: 7,
                key: 0,
                value: 0,
            },
            Call::Step { seat: 0 },
            Call::Abandon { seat: 8 },
            Call::Format { fan: 2 },
            Call::Format { fan: 14 },
            Call::Format {
                fan: self.scenario.fan,
            },
        ] {
            self.call(call)?;
        }
        Ok(())
    }

    fn mixed(&mut self, rounds: u64) -> Result<(), String> {
        for _ in 0..rounds {
            let draws = self.draws();
            self.call(match draws.choice() {
                0..=11 => draws.find(),
                12..=43 => draws.put(),
                44 => Call::Abandon { seat: draws.seat },
                45 => Call::Format {
                    fan: self.scenario.fan,
                },
                _ => Call::Step { seat: draws.seat },
            })?;
        }
        Ok(())
    }

    fn burst(&mut self, rounds: u64) -> Result<(), String> {
        for _ in 0..rounds {
            let draws = self.draws();
            self.call(match draws.choice() {
                0..=15 => Call::Abandon { seat: draws.seat },
                16..=17 => Call::Format {
                    fan: self.scenario.fan,
                },
                18..=199 => draws.find(),
                _ => draws.put(),
            })?;
            self.drive(draws.seat, draws.steps())?;
        }
        Ok(())
    }

    fn worn(&mut self, rounds: u64) -> Result<(), String> {
        for round in 0..rounds {
            let key = self.key_of(round % self.scenario.keys);
            let value = round & self.top();
            self.call(Call::Put {
                seat: 0,
                key,
                value,
            })?;
            self.drive(0, MOST_STEPS)?;
        }
        Ok(())
    }

    /// Steps a seat until it ends, is refused, or made so many steps.
    fn drive(&mut self, seat: u64, steps: u64) -> Result<(), String> {
        for _ in 0..steps {
            if self.call(Call::Step { seat })?.stops() {
                break;
            }
        }
        Ok(())
    }

    fn draws(&mut self) -> Draws {
        let action = self.random.draw();
        let key = self.random.draw();
        let value = self.random.draw();
        Draws {
            action,
            seat: seat(action),
            key: self.key(key),
            value: self.value(value),
        }
    }

    fn key(&self, draw: u64) -> u64 {
        if draw >> 58 == 0 {
            ODD_WORDS[((draw >> 55) & 7) as usize]
        } else {
            self.key_of((draw & 0xFFFF_FFFF) % self.scenario.keys)
        }
    }

    fn value(&self, draw: u64) -> u64 {
        match draw >> 58 {
            0 => self.top().wrapping_add(1),
            1 => self.top(),
            _ => draw & self.top(),
        }
    }

    /// The key that an index of the key space stands for.
    fn key_of(&self, index: u64) -> u64 {
        let wide = match self.scenario.order {
            Order::Number => index.wrapping_mul(0x9E37_79B9_7F4A_7C15),
            Order::Lane => lane_key(index, self.scenario.keys),
            Order::Label => label_key(index),
        };
        wide & self.top()
    }
}

fn seat(draw: u64) -> u64 {
    let seat = (draw >> 16) & 7;
    if (draw >> 24) & 255 == 0 {
        seat + 8
    } else {
        seat
    }
}

fn lane_key(index: u64, keys: u64) -> u64 {
    let lane = (index & 3) * 85;
    let place = (index >> 2).wrapping_sub(keys >> 3) & 0xFFFF_FFFF;
    lane << 32 | place
}

fn label_key(index: u64) -> u64 {
    let mut word = 0;
    let mut rest = index;
    let mut shift = 0;
    while rest > 0 && shift < 64 {
        rest -= 1;
        word |= (15 + 16 * (rest & 15)) << shift;
        rest >>= 4;
        shift += 8;
    }
    word
}

#[cfg(test)]
mod tests {
    use super::*;

    #[test]
    fn labels_are_keys() {
        assert_eq!([0, 1, 16, 17].map(label_key), [0, 15, 255, 15 << 8 | 15]);
        assert!((0..70_000).all(|index| Order::Label.is_key(label_key(index))));
        assert!((0..70_000).all(|index| Order::Label.is_key(label_key(index) & 65_535)));
    }

    #[test]
    fn lanes_are_keys() {
        assert_eq!(lane_key(0, 64), 4_294_967_288);
        assert_eq!(lane_key(35, 64), 255 << 32);
        assert!((0..1_000).all(|index| Order::Lane.is_key(lane_key(index, 1_000))));
    }
}
