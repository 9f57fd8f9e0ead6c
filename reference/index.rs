//! The index: a B+-tree in a memory, worked from eight seats one step at a time.

use crate::call::{Answer, Call, Kind, Refusal, Report};
use crate::memory::Memory;
use crate::node::{Entry, Node, Plan, Split, NODE_WORDS};
use crate::order::Order;

pub const SEATS: usize = 8;
const LATCH_BIT: u64 = 1;

pub struct Index {
    store: Store,
    formatted: bool,
    seats: [Option<Work>; SEATS],
}

/// What all seats share.
struct Store {
    memory: Memory,
    order: Order,
    fan: u64,
    node_count: u64,
}

/// What a seat does while it isn't idle.
#[derive(Clone)]
struct Work {
    task: Task,
    phase: Phase,
    node: u64,
    aim: u64,
    sought: u64,
    copy: Node,
    published: bool,
    /// How the put will end, known from its release, its undo or a worn latch on.
    ending: Ending,
    /// The new content, worked out when the latch is won.
    content: Vec<Entry>,
    /// What the fill writes, in its order.
    writes: Vec<Write>,
    post: Option<Split>,
}

#[derive(Clone, Copy)]
enum Task {
    Find,
    Put { value: u64 },
    Post { split: Split },
}

#[derive(Clone, Copy)]
enum Phase {
    Look,
    Copy { word: usize },
    Check,
    Latch,
    Take,
    Undo,
    Fill { at: usize },
    Release,
    End,
}

#[derive(Clone, Copy)]
enum Ending {
    Stored,
    Replaced { old: u64 },
    Untold,
    Full,
    Worn,
}

#[derive(Clone, Copy)]
struct Write {
    cell: u64,
    word: u64,
}

impl Index {
    pub fn new(memory: Memory, order: Order) -> Index {
        let store = Store {
            memory,
            order,
            fan: 0,
            node_count: 0,
        };
        Index {
            store,
            formatted: false,
            seats: Default::default(),
        }
    }

    pub fn call(&mut self, call: Call) -> Answer {
        match call {
            Call::Format { fan } => self.format(fan),
            Call::Find { seat, key } => self.begin(seat, key, Task::Find),
            Call::Put { seat, key, value } => self.begin(seat, key, Task::Put { value }),
            Call::Step { seat } => self.step(seat),
            Call::Abandon { seat } => self.abandon(seat),
        }
    }

    pub fn memory(&self) -> &Memory {
        &self.store.memory
    }

    pub fn order(&self) -> Order {
        self.store.order
    }

    pub fn node_count(&self) -> u64 {
        self.store.node_count
    }

    fn format(&mut self, fan: u64) -> Answer {
        if self.formatted {
            return Err(Refusal::Formatted);
        }
        if !(3..=13).contains(&fan) {
            return Err(Refusal::BadFan);
        }
        if self.store.memory.length() < NODE_WORDS as u64 {
            return Err(Refusal::TooSmall);
        }
        for cell in 0..NODE_WORDS as u64 {
            self.store.memory.write(cell, 0)?;
        }
        self.formatted = true;
        self.store.fan = fan;
        self.store.node_count = 1;
        Ok(Report::plain(Kind::GoneOn))
    }

    /// The place of a seat in the table.
    fn seat(&self, seat: u64) -> Result<usize, Refusal> {
        if !self.formatted {
            return Err(Refusal::Unformatted);
        }
        if seat >= SEATS as u64 {
            return Err(Refusal::NoSeat);
        }
        Ok(seat as usize)
    }

    fn begin(&mut self, seat: u64, key: u64, task: Task) -> Answer {
        let seat = self.seat(seat)?;
        if self.seats[seat].is_some() {
            return Err(Refusal::Busy);
        }
        let top = self.store.memory.top_word();
        let wide_value = matches!(task, Task::Put { value } if value > top);
        if key > top || wide_value {
            return Err(Refusal::TooWide);
        }
        if !self.store.order.is_key(key) {
            return Err(Refusal::NoKey);
        }
        self.seats[seat] = Some(Work::new(task, key));
        Ok(Report::plain(Kind::GoneOn))
    }

    fn step(&mut self, seat: u64) -> Answer {
        let seat = self.seat(seat)?;
        let work = self.seats[seat].as_mut().ok_or(Refusal::Idle)?;
        let report = work.step(&mut self.store)?;
        if report.kind as u64 >= Kind::Found as u64 {
            self.seats[seat] = None;
        }
        Ok(report)
    }

    fn abandon(&mut self, seat: u64) -> Answer {
        let seat = self.seat(seat)?;
        let work = self.seats[seat].as_ref().ok_or(Refusal::Idle)?;
        if work.holds_latch() {
            return Err(Refusal::Holding);
        }
        let kind = if work.published {
            Kind::AbandonedPublished
        } else {
            Kind::AbandonedUnpublished
        };
        self.seats[seat] = None;
        Ok(Report::plain(kind))
    }
}

impl Store {
    fn room(&self) -> u64 {
        self.memory.length() / NODE_WORDS as u64
    }

    fn read(&self, node: u64, word: usize) -> Result<u64, Refusal> {
        self.memory.read(cell(node, word)?)
    }

    fn write(&mut self, node: u64, word: usize, new: u64) -> Result<(), Refusal> {
        self.memory.write(cell(node, word)?, new)
    }

    /// Takes nodes from the node count on, and answers the first. None is taken if they are too few.
    fn take(&mut self, nodes: u64) -> Option<u64> {
        let first = self.node_count;
        if first + nodes > self.room() {
            return None;
        }
        self.node_count += nodes;
        Some(first)
    }
}

fn cell(node: u64, word: usize) -> Result<u64, Refusal> {
    let first = node.checked_mul(NODE_WORDS as u64).ok_or(Refusal::NoCell)?;
    first.checked_add(word as u64).ok_or(Refusal::NoCell)
}

impl Work {
    fn new(task: Task, key: u64) -> Work {
        Work {
            task,
            phase: Phase::Look,
            node: 0,
            aim: 0,
            sought: key,
            copy: Node::empty(),
            published: false,
            ending: Ending::Stored,
            content: Vec::new(),
            writes: Vec::new(),
            post: None,
        }
    }

    fn holds_latch(&self) -> bool {
        matches!(
            self.phase,
            Phase::Take | Phase::Undo | Phase::Fill { .. } | Phase::Release
        )
    }

    fn version(&self) -> u64 {
        self.copy.lock()
    }

    /// One step. A refused step leaves everything as it was.
    fn step(&mut self, store: &mut Store) -> Answer {
        match self.phase {
            Phase::Look => self.look(store),
            Phase::Copy { word } => self.copy_word(store, word),
            Phase::Check => self.check(store),
            Phase::Latch => self.latch(store),
            Phase::Take => self.take(store),
            Phase::Undo => self.undo(store),
            Phase::Fill { at } => self.fill(store, at),
            Phase::Release => self.release(store),
            Phase::End => self.end(),
        }
    }

    fn gone_on(&mut self, next: Phase) -> Answer {
        self.phase = next;
        Ok(Report::at(Kind::GoneOn, self.node))
    }

    fn turned_back(&mut self) -> Answer {
        self.phase = Phase::Look;
        Ok(Report::at(Kind::TurnedBack, self.node))
    }

    /// The next step looks at another node.
    fn move_on(&mut self, node: u64) -> Answer {
        let report = Report::at(Kind::GoneOn, self.node);
        self.node = node;
        self.phase = Phase::Look;
        Ok(report)
    }

    fn look(&mut self, store: &Store) -> Answer {
        self.copy.words[0] = store.read(self.node, 0)? & !LATCH_BIT;
        self.gone_on(Phase::Copy { word: 1 })
    }

    fn copy_word(&mut self, store: &Store, word: usize) -> Answer {
        self.copy.words[word] = store.read(self.node, word)?;
        let next = word + 1;
        self.gone_on(if next < NODE_WORDS {
            Phase::Copy { word: next }
        } else {
            Phase::Check
        })
    }

    fn check(&mut self, store: &Store) -> Answer {
        if store.read(self.node, 0)? != self.version() {
            return self.turned_back();
        }
        if !self.copy.covers(store.order, self.sought) {
            return self.move_on(self.copy.link());
        }
        if self.copy.level() > self.aim {
            return self.move_on(self.copy.child(store.order, self.sought));
        }
        match self.task {
            Task::Find => self.end_find(store.order),
            Task::Put { .. } | Task::Post { .. } => self.gone_on(Phase::Latch),
        }
    }

    fn end_find(&self, order: Order) -> Answer {
        Ok(match self.copy.value(order, self.sought) {
            Some(word) => Report {
                kind: Kind::Found,
                node: self.node,
                word,
            },
            None => Report::at(Kind::Absent, self.node),
        })
    }

    /// The lock word that frees the latch, unless the lock word is worn out.
    fn next_version(&self, top: u64) -> Option<u64> {
        self.version().checked_add(2).filter(|&next| next <= top)
    }

    fn latch(&mut self, store: &mut Store) -> Answer {
        let version = self.version();
        if self.next_version(store.memory.top_word()).is_none() {
            self.stop(Ending::Worn);
            return self.gone_on(Phase::End);
        }
        let held = store
            .memory
            .swap(cell(self.node, 0)?, version, version + LATCH_BIT)?;
        if held != version {
            return self.turned_back();
        }
        self.draft(store);
        Ok(Report::at(Kind::Latched, self.node))
    }

    /// Works out the new content of the latched node.
    fn draft(&mut self, store: &Store) {
        let order = store.order;
        self.content = match self.task {
            Task::Find => self.copy.entries(),
            Task::Put { value } => self.copy.with_pair(
                order,
                Entry {
                    key: self.sought,
                    word: value,
                },
            ),
            Task::Post { split } => self.copy.with_split(order, split),
        };
        if self.content.len() as u64 > store.fan {
            self.phase = Phase::Take;
        } else {
            let plan = Plan::keep(&self.copy, &self.content);
            self.set_plan(&plan, 0);
        }
    }

    fn take(&mut self, store: &mut Store) -> Answer {
        let is_root = self.node == 0;
        if is_root && self.copy.level() >= store.memory.top_word() {
            return self.gone_on(Phase::Undo);
        }
        let Some(first) = store.take(if is_root { 2 } else { 1 }) else {
            return self.gone_on(Phase::Undo);
        };
        let plan = if is_root {
            Plan::rise(&self.copy, &self.content, store.fan, first)
        } else {
            Plan::split(&self.copy, &self.content, store.fan, first)
        };
        self.set_plan(&plan, first);
        Ok(Report::at(Kind::GoneOn, self.node))
    }

    /// Lists the writes of the fill in their order.
    fn set_plan(&mut self, plan: &Plan, first_taken: u64) {
        self.writes.clear();
        for (number, node) in (first_taken..).zip(&plan.taken) {
            self.list_writes(number, node, 0);
        }
        self.list_writes(self.node, &plan.latched, 1);
        self.post = plan.post;
        self.phase = Phase::Fill { at: 0 };
    }

    fn list_writes(&mut self, number: u64, node: &Node, from: usize) {
        let base = number * NODE_WORDS as u64;
        for (at, &word) in node.words.iter().enumerate().skip(from) {
            self.writes.push(Write {
                cell: base + at as u64,
                word,
            });
        }
    }

    fn undo(&mut self, store: &mut Store) -> Answer {
        store.write(self.node, 0, self.version() + 2)?;
        self.stop(Ending::Full);
        self.phase = Phase::End;
        Ok(Report::at(Kind::Unchanged, self.node))
    }

    fn fill(&mut self, store: &mut Store, at: usize) -> Answer {
        let Write { cell, word } = self.writes[at];
        store.memory.write(cell, word)?;
        let next = at + 1;
        self.gone_on(if next < self.writes.len() {
            Phase::Fill { at: next }
        } else {
            Phase::Release
        })
    }

    fn release(&mut self, store: &mut Store) -> Answer {
        store.write(self.node, 0, self.version() + 2)?;
        let kind = if self.copy.is_leaf() {
            Kind::Published
        } else {
            Kind::Posted
        };
        let report = Report::at(kind, self.node);
        if matches!(self.task, Task::Put { .. }) {
            self.published = true;
            self.ending = match self.copy.value(store.order, self.sought) {
                Some(old) => Ending::Replaced { old },
                None => Ending::Stored,
            };
        }
        match self.post.take() {
            Some(split) => self.begin_post(split),
            None => self.phase = Phase::End,
        }
        Ok(report)
    }

    /// The seat returns to the root, to post a split one level higher.
    fn begin_post(&mut self, split: Split) {
        let Some(aim) = self.aim.checked_add(1) else {
            self.stop(Ending::Untold);
            self.phase = Phase::End;
            return;
        };
        self.task = Task::Post { split };
        self.node = 0;
        self.aim = aim;
        self.sought = split.key;
        self.phase = Phase::Look;
    }

    /// The put won't write any more. One that was published ends as stored untold.
    fn stop(&mut self, unpublished: Ending) {
        self.ending = if self.published {
            Ending::Untold
        } else {
            unpublished
        };
    }

    fn end(&self) -> Answer {
        let (kind, word) = match self.ending {
            Ending::Stored => (Kind::Stored, 0),
            Ending::Replaced { old } => (Kind::Replaced, old),
            Ending::Untold => (Kind::StoredUntold, 0),
            Ending::Full => (Kind::Full, 0),
            Ending::Worn => (Kind::Worn, 0),
        };
        Ok(Report {
            kind,
            node: self.node,
            word,
        })
    }
}

#[cfg(test)]
mod tests {
    use super::*;
    use crate::memory::BankKind;

    fn index(kind: BankKind, cells: usize) -> Index {
        let mut index = Index::new(Memory::single(kind, cells, 0xA5), Order::Number);
        index.call(Call::Format { fan: 3 }).unwrap();
        index
    }

    /// Steps a seat to the end. Answers the ending and the number of steps.
    fn finish(index: &mut Index, seat: u64) -> (Kind, usize) {
        for steps in 1.. {
            let report = index.call(Call::Step { seat }).unwrap();
            if report.kind as u64 >= Kind::Found as u64 {
                return (report.kind, steps);
            }
        }
        unreachable!()
    }

    fn put(index: &mut Index, key: u64) -> (Kind, usize) {
        index
            .call(Call::Put {
                seat: 0,
                key,
                value: key + 1,
            })
            .unwrap();
        finish(index, 0)
    }

    #[test]
    fn puts_take_known_numbers_of_steps() {
        let mut index = index(BankKind::Word, 512);
        let steps: Vec<usize> = [10, 20, 30, 40, 50]
            .map(|key| put(&mut index, key).1)
            .into();
        assert_eq!(steps, [67, 67, 67, 132, 100]);
        index
            .call(Call::Put {
                seat: 3,
                key: 60,
                value: 9,
            })
            .unwrap();
        for _ in 0..131 {
            assert!((index.call(Call::Step { seat: 3 }).unwrap().kind as u64) < 3);
        }
        assert_eq!(
            index.call(Call::Step { seat: 3 }).unwrap().kind,
            Kind::Published
        );
        assert_eq!(finish(&mut index, 3), (Kind::Stored, 199 - 132));
    }

    #[test]
    fn a_post_without_room_ends_untold() {
        let mut index = index(BankKind::Word, 160);
        for key in [10, 20, 30, 40, 50, 60, 70] {
            assert_eq!(put(&mut index, key).0, Kind::Stored);
        }
        assert_eq!(put(&mut index, 80), (Kind::StoredUntold, 169));
        index.call(Call::Find { seat: 1, key: 80 }).unwrap();
        assert_eq!(finish(&mut index, 1).0, Kind::Found);
    }

    #[test]
    fn one_node_is_full_at_the_fourth_key() {
        let mut index = index(BankKind::Word, 32);
        for key in [1, 2, 3] {
            assert_eq!(put(&mut index, key), (Kind::Stored, 67));
        }
        assert_eq!(put(&mut index, 4), (Kind::Full, 37));
        assert_eq!(put(&mut index, 3).0, Kind::Replaced);
    }

    #[test]
    fn a_two_byte_lock_word_wears_out() {
        let mut index = index(BankKind::Bytes(2), 32);
        assert_eq!(put(&mut index, 5).0, Kind::Stored);
        for _ in 1..32_767 {
            assert_eq!(put(&mut index, 5).0, Kind::Replaced);
        }
        assert_eq!(put(&mut index, 5), (Kind::Worn, 35));
    }

    #[test]
    fn a_latch_turns_others_back_and_forbids_abandoning() {
        let mut index = index(BankKind::Word, 512);
        index
            .call(Call::Put {
                seat: 0,
                key: 1,
                value: 1,
            })
            .unwrap();
        for _ in 0..34 {
            index.call(Call::Step { seat: 0 }).unwrap();
        }
        assert_eq!(index.call(Call::Abandon { seat: 0 }), Err(Refusal::Holding));
        index.call(Call::Find { seat: 1, key: 1 }).unwrap();
        for _ in 0..32 {
            assert_eq!(
                index.call(Call::Step { seat: 1 }).unwrap().kind,
                Kind::GoneOn
            );
        }
        assert_eq!(
            index.call(Call::Step { seat: 1 }).unwrap().kind,
            Kind::TurnedBack
        );
        assert_eq!(finish(&mut index, 0).0, Kind::Stored);
        assert_eq!(finish(&mut index, 1).0, Kind::Found);
        assert_eq!(index.call(Call::Abandon { seat: 1 }), Err(Refusal::Idle));
    }
}
