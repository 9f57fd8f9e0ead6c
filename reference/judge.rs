//! Checks the four laws at each event, from calls and answers alone.

use std::collections::BTreeMap;

use crate::call::{told, Answer, Call, Refusal, Told};
use crate::index::SEATS;
use crate::order::Order;
use crate::trial::Witness;

/// The check is so many accepted steps after its look.
const STEPS_TO_CHECK: u32 = 32;

/// What is known of the index without its history.
#[derive(Clone, Copy)]
pub struct Setting {
    pub order: Order,
    pub top: u64,
    pub cells: u64,
}

/// How much was judged.
#[derive(Clone, Copy, Default)]
pub struct Counts {
    pub steps: u64,
    pub finds: u64,
    pub puts: u64,
    pub turned_back: u64,
    pub passed: u64,
    pub abandons: u64,
    /// Abandons of a put on its way to post a split.
    pub posts_abandoned: u64,
    pub refusals: u64,
    /// The most seats that worked at once.
    pub most_working: u64,
    /// Accepted begins with key 65,535.
    pub key_65535_taken: u64,
    /// Begins with key 65,536 that were refused with 25.
    pub key_65536_refused: u64,
}

pub struct Judge {
    setting: Setting,
    formatted: bool,
    plain_map: BTreeMap<u64, u64>,
    seats: [Seat; SEATS],
    events: u64,
    counts: Counts,
}

/// What the history says of a seat.
#[derive(Clone, Default)]
struct Seat {
    operation: Operation,
    working: bool,
    /// For each report 3 since the begin, what the plain map held for the key just before.
    publishings: Vec<Option<u64>>,
    holds: Option<u64>,
    place: Place,
}

/// The last accepted begin.
#[derive(Clone, Copy, Default)]
enum Operation {
    #[default]
    None,
    Find {
        key: u64,
    },
    Put {
        key: u64,
        value: u64,
    },
}

/// Where a seat stands between look, check and latch step.
#[derive(Clone, Copy, Default)]
enum Place {
    #[default]
    Elsewhere,
    /// The next step is a look.
    BeforeLook,
    AfterLook {
        look: Look,
        steps: u32,
    },
    /// After a check's 0. The next step is a latch step or a look.
    Checked {
        look: Look,
    },
    /// After a report 3 or 4. The next step is a look or the end.
    Released,
}

#[derive(Clone, Copy)]
struct Look {
    node: u64,
    /// Another seat held the latch of the node at the look or at an event since.
    disturbed: bool,
}

/// Which step an accepted step is.
enum Role {
    Look,
    Copy { look: Look, steps: u32 },
    Check { look: Look },
    Latch { look: Look },
    Other,
}

impl Witness for Judge {
    fn see(&mut self, call: Call, answer: &Answer) -> Result<(), String> {
        self.events += 1;
        let told = told(answer);
        self.judge(call, told).map_err(|fault| {
            let Told { number, node, word } = told;
            format!(
                "event {}, {call:?} answered {number} {node} {word}: {fault}",
                self.events
            )
        })
    }
}

impl Judge {
    pub fn new(setting: Setting) -> Judge {
        Judge {
            setting,
            formatted: false,
            plain_map: BTreeMap::new(),
            seats: Default::default(),
            events: 0,
            counts: Counts::default(),
        }
    }

    pub fn counts(&self) -> Counts {
        self.counts
    }

    pub fn plain_map(&self) -> &BTreeMap<u64, u64> {
        &self.plain_map
    }

    pub fn formatted(&self) -> bool {
        self.formatted
    }

    pub fn works(&self, seat: usize) -> bool {
        self.seats[seat].working
    }

    pub fn holds_latch(&self, seat: usize) -> bool {
        self.seats[seat].holds.is_some()
    }

    fn judge(&mut self, call: Call, told: Told) -> Result<(), String> {
        self.note_latches();
        self.judge_refusal(call, told)?;
        if !told.accepted() {
            self.count_refusal(call, told);
            return Ok(());
        }
        match call {
            Call::Format { .. } => {
                self.formatted = true;
                Ok(())
            }
            Call::Find { seat, key } => self.begin(seat as usize, Operation::Find { key }),
            Call::Put { seat, key, value } => {
                self.begin(seat as usize, Operation::Put { key, value })
            }
            Call::Step { seat } => self.step(seat as usize, told),
            Call::Abandon { seat } => self.abandon(seat as usize, told),
        }
    }

    /// A call is refused exactly where the history says so, and with that number.
    fn judge_refusal(&self, call: Call, told: Told) -> Result<(), String> {
        let expected = self.refusal(call).map(|refusal| refusal as u64);
        match (expected, told.accepted()) {
            (None, true) => Ok(()),
            (Some(number), false) if number == told.number && told.node == 0 && told.word == 0 => {
                Ok(())
            }
            (None, false) => Err("the call should be accepted".to_string()),
            (Some(number), _) => Err(format!("the call should be refused with {number}")),
        }
    }

    fn refusal(&self, call: Call) -> Option<Refusal> {
        match call {
            Call::Format { fan } => self.format_refusal(fan),
            Call::Find { seat, key } => self.begin_refusal(seat, key, 0),
            Call::Put { seat, key, value } => self.begin_refusal(seat, key, value),
            Call::Step { seat } | Call::Abandon { seat } => self.work_refusal(seat, call),
        }
    }

    fn format_refusal(&self, fan: u64) -> Option<Refusal> {
        if self.formatted {
            Some(Refusal::Formatted)
        } else if !(3..=13).contains(&fan) {
            Some(Refusal::BadFan)
        } else if self.setting.cells < 32 {
            Some(Refusal::TooSmall)
        } else {
            None
        }
    }

    fn begin_refusal(&self, seat: u64, key: u64, value: u64) -> Option<Refusal> {
        let Setting { order, top, .. } = self.setting;
        if !self.formatted {
            Some(Refusal::Unformatted)
        } else if seat > 7 {
            Some(Refusal::NoSeat)
        } else if self.seats[seat as usize].working {
            Some(Refusal::Busy)
        } else if key > top || value > top {
            Some(Refusal::TooWide)
        } else if !order.is_key(key) {
            Some(Refusal::NoKey)
        } else {
            None
        }
    }

    fn work_refusal(&self, seat: u64, call: Call) -> Option<Refusal> {
        if !self.formatted {
            Some(Refusal::Unformatted)
        } else if seat > 7 {
            Some(Refusal::NoSeat)
        } else if !self.seats[seat as usize].working {
            Some(Refusal::Idle)
        } else if matches!(call, Call::Abandon { .. }) && self.seats[seat as usize].holds.is_some()
        {
            Some(Refusal::Holding)
        } else {
            None
        }
    }

    fn count_refusal(&mut self, call: Call, told: Told) {
        self.counts.refusals += 1;
        if let Call::Find { key: 65_536, .. } | Call::Put { key: 65_536, .. } = call {
            self.counts.key_65536_refused += u64::from(told.number == Refusal::TooWide as u64);
        }
    }

    /// Notes, as things stand just before an event, which looks are disturbed.
    fn note_latches(&mut self) {
        for holder in 0..SEATS {
            let Some(held) = self.seats[holder].holds else {
                continue;
            };
            for (seat, other) in self.seats.iter_mut().enumerate() {
                if seat == holder {
                    continue;
                }
                if let Place::AfterLook { look, .. } | Place::Checked { look } = &mut other.place {
                    look.disturbed |= look.node == held;
                }
            }
        }
    }

    fn held_by_another(&self, seat: usize, node: u64) -> bool {
        (0..SEATS).any(|other| other != seat && self.seats[other].holds == Some(node))
    }

    fn begin(&mut self, seat: usize, operation: Operation) -> Result<(), String> {
        self.seats[seat] = Seat {
            operation,
            working: true,
            publishings: Vec::new(),
            holds: None,
            place: Place::BeforeLook,
        };
        let working = self.seats.iter().filter(|seat| seat.working).count() as u64;
        self.counts.most_working = self.counts.most_working.max(working);
        if let Operation::Find { key: 65_535 } | Operation::Put { key: 65_535, .. } = operation {
            self.counts.key_65535_taken += 1;
        }
        Ok(())
    }

    fn step(&mut self, seat: usize, told: Told) -> Result<(), String> {
        self.counts.steps += 1;
        let role = self.role(seat, told);
        self.judge_turning(&role, told)?;
        self.seats[seat].place = self.next_place(seat, role, told);
        match told.number {
            0 | 1 => Ok(()),
            2 => {
                self.seats[seat].holds = Some(told.node);
                Ok(())
            }
            3 => {
                self.seats[seat].holds = None;
                self.publish(seat)
            }
            4 | 5 => {
                self.seats[seat].holds = None;
                Ok(())
            }
            6 | 7 => self.end_find(seat, told),
            8..=12 => self.end_put(seat, told),
            _ => Err("a step never reports this".to_string()),
        }
    }

    fn role(&self, seat: usize, told: Told) -> Role {
        match self.seats[seat].place {
            Place::BeforeLook => Role::Look,
            Place::AfterLook { look, steps } if steps + 1 == STEPS_TO_CHECK => Role::Check { look },
            Place::AfterLook { look, steps } => Role::Copy {
                look,
                steps: steps + 1,
            },
            Place::Checked { look } if look.node == told.node => Role::Latch { look },
            Place::Checked { .. } => Role::Look,
            Place::Released if told.number == 0 => Role::Look,
            Place::Released | Place::Elsewhere => Role::Other,
        }
    }

    fn next_place(&self, seat: usize, role: Role, told: Told) -> Place {
        match (told.number, role) {
            (1, _) => Place::BeforeLook,
            (3 | 4, _) => Place::Released,
            (0, Role::Look) => {
                let disturbed = self.held_by_another(seat, told.node);
                Place::AfterLook {
                    look: Look {
                        node: told.node,
                        disturbed,
                    },
                    steps: 0,
                }
            }
            (0, Role::Copy { look, steps }) => Place::AfterLook { look, steps },
            (0, Role::Check { look }) => Place::Checked { look },
            _ => Place::Elsewhere,
        }
    }

    /// The turning law.
    fn judge_turning(&mut self, role: &Role, told: Told) -> Result<(), String> {
        let turned_back = told.number == 1;
        let (Role::Check { look } | Role::Latch { look }) = role else {
            return if turned_back {
                Err("turned back at a step that is neither a check nor a latch step".to_string())
            } else {
                Ok(())
            };
        };
        if look.node != told.node {
            return Err(format!(
                "a check at another node than its look at {}",
                look.node
            ));
        }
        match (turned_back, look.disturbed) {
            (true, false) => Err("the turning law: turned back without a cause".to_string()),
            (false, true) => {
                Err("the turning law: accepted although another seat held the latch".to_string())
            }
            (true, true) => {
                self.counts.turned_back += 1;
                Ok(())
            }
            (false, false) => {
                self.counts.passed += 1;
                Ok(())
            }
        }
    }

    /// A report 3: the plain map takes the pair.
    fn publish(&mut self, seat: usize) -> Result<(), String> {
        let Operation::Put { key, value } = self.seats[seat].operation else {
            return Err("published without a put".to_string());
        };
        let before = self.plain_map.insert(key, value);
        self.seats[seat].publishings.push(before);
        Ok(())
    }

    /// The find law.
    fn end_find(&mut self, seat: usize, told: Told) -> Result<(), String> {
        self.seats[seat].working = false;
        let Operation::Find { key } = self.seats[seat].operation else {
            return Err("a find ended on a seat that has none".to_string());
        };
        self.counts.finds += 1;
        let expected = match self.plain_map.get(&key) {
            Some(&value) => (6, value),
            None => (7, 0),
        };
        if (told.number, told.word) != expected {
            return Err(format!(
                "the find law: the plain map has {expected:?} for key {key}"
            ));
        }
        Ok(())
    }

    /// The put law.
    fn end_put(&mut self, seat: usize, told: Told) -> Result<(), String> {
        self.seats[seat].working = false;
        if !matches!(self.seats[seat].operation, Operation::Put { .. }) {
            return Err("a put ended on a seat that has none".to_string());
        }
        self.counts.puts += 1;
        let publishings = self.seats[seat].publishings.as_slice();
        let lawful = match told.number {
            8 | 10 => publishings == [None],
            9 => publishings == [Some(told.word)],
            _ => publishings.is_empty(),
        };
        if !lawful {
            return Err(format!("the put law: the publishings are {publishings:?}"));
        }
        Ok(())
    }

    /// The abandon law.
    fn abandon(&mut self, seat: usize, told: Told) -> Result<(), String> {
        let state = &mut self.seats[seat];
        let published = !state.publishings.is_empty();
        state.working = false;
        let posting = published && !matches!(state.place, Place::Released);
        state.place = Place::Elsewhere;
        self.counts.abandons += 1;
        self.counts.posts_abandoned += u64::from(posting);
        let expected = if published { 14 } else { 13 };
        if told.number != expected {
            return Err(format!("the abandon law: {expected} is due"));
        }
        Ok(())
    }
}

#[cfg(test)]
mod tests {
    use super::*;
    use crate::call::{Kind, Report};

    fn judge() -> Judge {
        let mut judge = Judge::new(Setting {
            order: Order::Number,
            top: 65_535,
            cells: 512,
        });
        tell(&mut judge, Call::Format { fan: 3 }, Kind::GoneOn, 0);
        judge
    }

    fn see(judge: &mut Judge, call: Call, kind: Kind, word: u64) -> Result<(), String> {
        judge.see(
            call,
            &Ok(Report {
                kind,
                node: 0,
                word,
            }),
        )
    }

    fn tell(judge: &mut Judge, call: Call, kind: Kind, word: u64) {
        see(judge, call, kind, word).unwrap();
    }

    fn steps(judge: &mut Judge, seat: u64, count: usize) {
        for _ in 0..count {
            tell(judge, Call::Step { seat }, Kind::GoneOn, 0);
        }
    }

    /// A put on seat 0 that has published the pair (5, value), but not ended.
    fn published(judge: &mut Judge, value: u64) {
        tell(
            judge,
            Call::Put {
                seat: 0,
                key: 5,
                value,
            },
            Kind::GoneOn,
            0,
        );
        steps(judge, 0, 33);
        tell(judge, Call::Step { seat: 0 }, Kind::Latched, 0);
        steps(judge, 0, 31);
        tell(judge, Call::Step { seat: 0 }, Kind::Published, 0);
    }

    #[test]
    fn a_lawful_run() {
        let mut judge = judge();
        published(&mut judge, 9);
        tell(&mut judge, Call::Step { seat: 0 }, Kind::Stored, 0);
        tell(&mut judge, Call::Find { seat: 1, key: 5 }, Kind::GoneOn, 0);
        steps(&mut judge, 1, 32);
        tell(&mut judge, Call::Step { seat: 1 }, Kind::Found, 9);
        published(&mut judge, 4);
        tell(&mut judge, Call::Step { seat: 0 }, Kind::Replaced, 9);
    }

    #[test]
    fn a_wrong_find_is_caught() {
        for (kind, word) in [(Kind::Found, 8), (Kind::Absent, 0)] {
            let mut judge = judge();
            published(&mut judge, 9);
            tell(&mut judge, Call::Find { seat: 1, key: 5 }, Kind::GoneOn, 0);
            steps(&mut judge, 1, 32);
            assert!(see(&mut judge, Call::Step { seat: 1 }, kind, word)
                .unwrap_err()
                .contains("find law"));
        }
    }

    #[test]
    fn a_wrong_put_is_caught() {
        for kind in [Kind::Replaced, Kind::Full, Kind::Worn] {
            let mut judge = judge();
            published(&mut judge, 9);
            assert!(see(&mut judge, Call::Step { seat: 0 }, kind, 0)
                .unwrap_err()
                .contains("put law"));
        }
        for kind in [Kind::Stored, Kind::StoredUntold, Kind::Replaced] {
            let mut judge = judge();
            tell(
                &mut judge,
                Call::Put {
                    seat: 0,
                    key: 5,
                    value: 1,
                },
                Kind::GoneOn,
                0,
            );
            steps(&mut judge, 0, 34);
            assert!(see(&mut judge, Call::Step { seat: 0 }, kind, 0)
                .unwrap_err()
                .contains("put law"));
        }
    }

    #[test]
    fn a_wrong_turning_is_caught() {
        let mut calm = judge();
        tell(&mut calm, Call::Find { seat: 1, key: 5 }, Kind::GoneOn, 0);
        steps(&mut calm, 1, 32);
        let turned = see(&mut calm, Call::Step { seat: 1 }, Kind::TurnedBack, 0);
        assert!(turned.unwrap_err().contains("without a cause"));

        let mut disturbed = judge();
        tell(
            &mut disturbed,
            Call::Find { seat: 1, key: 5 },
            Kind::GoneOn,
            0,
        );
        steps(&mut disturbed, 1, 1);
        published(&mut disturbed, 9);
        steps(&mut disturbed, 1, 31);
        let found = see(&mut disturbed, Call::Step { seat: 1 }, Kind::Found, 9);
        assert!(found.unwrap_err().contains("held the latch"));
    }

    #[test]
    fn a_wrong_abandon_is_caught() {
        let mut judge = judge();
        published(&mut judge, 9);
        let abandoned = see(
            &mut judge,
            Call::Abandon { seat: 0 },
            Kind::AbandonedUnpublished,
            0,
        );
        assert!(abandoned.unwrap_err().contains("abandon law"));
    }

    #[test]
    fn a_wrong_refusal_is_caught() {
        let mut judge = judge();
        assert!(judge
            .see(Call::Step { seat: 8 }, &Err(Refusal::NoSeat))
            .is_ok());
        assert!(judge
            .see(Call::Step { seat: 8 }, &Err(Refusal::Idle))
            .is_err());
        assert!(judge
            .see(
                Call::Find {
                    seat: 0,
                    key: 65_536
                },
                &Err(Refusal::TooWide)
            )
            .is_ok());
        assert!(judge
            .see(
                Call::Find {
                    seat: 0,
                    key: 65_535
                },
                &Err(Refusal::TooWide)
            )
            .is_err());
    }
}
