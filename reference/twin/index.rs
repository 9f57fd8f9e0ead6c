//! The twin's index: the same calls, steps, reports and refusals as the proved one, as one would write it without proofs.

use crate::memory::{Fault, Memory, LONGEST};
use crate::node::{self, NODE_WORDS};
use crate::order::Order;
use crate::report::{Outcome, Refusal, Report};
use crate::seat::{Operation, Part, Phase, Seat};

type Answer = Result<Report, Refusal>;

pub struct Index<M: Memory, O: Order> {
    memory: M,
    order: O,
    fan: u8,
    count: u64,
    seats: [Seat; 8],
}

/// The cell of a word of a node.
fn cell(node: u64, word: u8) -> Result<u64, Fault> {
    if node < LONGEST {
        Ok(NODE_WORDS as u64 * node + u64::from(word))
    } else {
        Err(Fault::NoCell)
    }
}

impl<M: Memory, O: Order> Index<M, O> {
    pub fn new(memory: M, order: O) -> Index<M, O> {
        Index {
            memory,
            order,
            fan: 0,
            count: 0,
            seats: [Seat::IDLE; 8],
        }
    }

    pub fn format(&mut self, fan: u64) -> Answer {
        if self.fan != 0 {
            return Err(Refusal::Formatted);
        }
        if !(3..=13).contains(&fan) {
            return Err(Refusal::BadFan);
        }
        if self.memory.length() < NODE_WORDS as u64 {
            return Err(Refusal::TooSmall);
        }
        for cell in 0..NODE_WORDS as u64 {
            self.memory.write(cell, 0)?;
        }
        self.fan = fan as u8;
        self.count = 1;
        self.seats = [Seat::IDLE; 8];
        Ok(Report::GoneOn(0))
    }

    fn place(&self, seat: u64) -> Result<usize, Refusal> {
        if self.fan == 0 {
            return Err(Refusal::Unformatted);
        }
        if seat >= 8 {
            return Err(Refusal::NoSeat);
        }
        Ok(seat as usize)
    }

    pub fn begin_find(&mut self, seat: u64, key: u64) -> Answer {
        self.begin(seat, key, Operation::Find, 0)
    }

    pub fn begin_put(&mut self, seat: u64, key: u64, value: u64) -> Answer {
        self.begin(seat, key, Operation::Put { value }, value)
    }

    fn begin(&mut self, seat: u64, key: u64, operation: Operation, value: u64) -> Answer {
        let place = self.place(seat)?;
        let lent = &mut self.seats[place];
        if !matches!(lent.phase, Phase::Idle) {
            return Err(Refusal::Busy);
        }
        let top = self.memory.top_word();
        if key > top || value > top {
            return Err(Refusal::TooWide);
        }
        if !self.order.is_key(key) {
            return Err(Refusal::NoKey);
        }
        lent.operation = operation;
        lent.phase = Phase::Look;
        lent.node = 0;
        lent.aim = 0;
        lent.key = key;
        Ok(Report::GoneOn(0))
    }

    pub fn abandon(&mut self, seat: u64) -> Answer {
        let place = self.place(seat)?;
        let lent = &mut self.seats[place];
        let published = match (lent.phase, lent.operation) {
            (Phase::Idle, _) => return Err(Refusal::Idle),
            (Phase::Take | Phase::Fill { .. } | Phase::Release | Phase::Undo, _) => {
                return Err(Refusal::Holding)
            }
            (Phase::End(Outcome::Full | Outcome::Worn), _) => false,
            (Phase::End(_), _) | (_, Operation::Post { .. }) => true,
            _ => false,
        };
        lent.phase = Phase::Idle;
        Ok(Report::Abandoned { published })
    }

    pub fn step(&mut self, seat: u64) -> Answer {
        let place = self.place(seat)?;
        let lent = &mut self.seats[place];
        let node = lent.node;
        match lent.phase {
            Phase::Idle => Err(Refusal::Idle),
            Phase::Look => {
                lent.copy[0] = self.memory.read(cell(node, 0)?)? & !1;
                lent.phase = Phase::Copy { next: 1 };
                Ok(Report::GoneOn(node))
            }
            Phase::Copy { next } => {
                lent.copy[usize::from(next)] = self.memory.read(cell(node, next)?)?;
                lent.phase = if next < 31 {
                    Phase::Copy { next: next + 1 }
                } else {
                    Phase::Check
                };
                Ok(Report::GoneOn(node))
            }
            Phase::Check => {
                if self.memory.read(cell(node, 0)?)? != lent.copy[0] {
                    lent.phase = Phase::Look;
                    return Ok(Report::TurnedBack(node));
                }
                Ok(accept(lent, &self.order))
            }
            Phase::Latch => self.latch(place),
            Phase::Take => {
                self.take(place);
                Ok(Report::GoneOn(node))
            }
            Phase::Fill { part, next } => {
                let (target, word) = lent.fill_word(self.fan, part, next);
                self.memory.write(cell(target, next)?, word)?;
                lent.phase = match part {
                    _ if next < 31 => Phase::Fill {
                        part,
                        next: next + 1,
                    },
                    Part::Left => Phase::Fill {
                        part: Part::Right,
                        next: 0,
                    },
                    Part::Right => Phase::Fill {
                        part: Part::Own,
                        next: 1,
                    },
                    Part::Own => Phase::Release,
                };
                Ok(Report::GoneOn(node))
            }
            Phase::Release => self.release(place),
            Phase::Undo => {
                self.memory.write(cell(node, 0)?, lent.draft.freeing)?;
                lent.phase = Phase::End(stopped(lent.operation, Outcome::Full));
                Ok(Report::Unchanged(node))
            }
            Phase::End(outcome) => {
                lent.phase = Phase::Idle;
                Ok(Report::Ended { node, outcome })
            }
        }
    }

    fn latch(&mut self, place: usize) -> Answer {
        let lent = &mut self.seats[place];
        let node = lent.node;
        let version = lent.copy[0];
        let freeing = match version.checked_add(2) {
            Some(next) if next <= self.memory.top_word() => next,
            _ => {
                lent.phase = Phase::End(stopped(lent.operation, Outcome::Worn));
                return Ok(Report::GoneOn(node));
            }
        };
        let held = self.memory.swap(cell(node, 0)?, version, freeing - 1)?;
        if held != version {
            lent.phase = Phase::Look;
            return Ok(Report::TurnedBack(node));
        }
        lent.draft_update(&self.order, self.fan, freeing);
        lent.phase = if lent.draft.len > self.fan {
            Phase::Take
        } else {
            Phase::Fill {
                part: Part::Own,
                next: 1,
            }
        };
        Ok(Report::Latched(node))
    }

    fn take(&mut self, place: usize) {
        let lent = &mut self.seats[place];
        let is_root = lent.node == 0;
        let first = self.count;
        let next = first + if is_root { 2 } else { 1 };
        let fits = next <= self.memory.length() / NODE_WORDS as u64
            && !(is_root && lent.draft.level >= self.memory.top_word());
        if !fits {
            lent.phase = Phase::Undo;
            return;
        }
        self.count = next;
        lent.draft.right = next - 1;
        let part = if is_root {
            lent.draft.level += 1;
            lent.draft.left = first;
            Part::Left
        } else {
            lent.draft.left = lent.node;
            Part::Right
        };
        lent.phase = Phase::Fill { part, next: 0 };
    }

    fn release(&mut self, place: usize) -> Answer {
        let lent = &mut self.seats[place];
        let node = lent.node;
        self.memory.write(cell(node, 0)?, lent.draft.freeing)?;
        let report = if lent.copy[1] == 0 {
            Report::Published(node)
        } else {
            Report::Posted(node)
        };
        if node == 0 || lent.draft.len <= self.fan {
            lent.phase = Phase::End(lent.draft.outcome);
            return Ok(report);
        }
        match lent.aim.checked_add(1) {
            Some(aim) => {
                let edge = lent.draft.edge;
                lent.operation = Operation::Post {
                    edge,
                    child: lent.draft.right,
                };
                lent.phase = Phase::Look;
                lent.node = 0;
                lent.aim = aim;
                lent.key = edge;
            }
            None => lent.phase = Phase::End(Outcome::Untold),
        }
        Ok(report)
    }
}

/// Goes on from an accepted copy.
fn accept<O: Order>(lent: &mut Seat, order: &O) -> Report {
    let node = lent.node;
    let to = if !node::covers(&lent.copy, order, lent.key) {
        Some(lent.copy[3])
    } else if lent.aim < lent.copy[1] {
        Some(node::child(&lent.copy, order, lent.key))
    } else {
        None
    };
    match (to, lent.operation) {
        (Some(next), _) => {
            lent.node = next;
            lent.phase = Phase::Look;
            Report::GoneOn(node)
        }
        (None, Operation::Find) => {
            lent.phase = Phase::Idle;
            match node::find(&lent.copy, order, lent.key) {
                Some(value) => Report::Found { node, value },
                None => Report::Absent(node),
            }
        }
        (None, _) => {
            lent.phase = Phase::Latch;
            Report::GoneOn(node)
        }
    }
}

/// How a put ends that is stopped.
fn stopped(operation: Operation, outcome: Outcome) -> Outcome {
    match operation {
        Operation::Post { .. } => Outcome::Untold,
        Operation::Find | Operation::Put { .. } => outcome,
    }
}
