//! A seat: what it does, how far it is, and what it will write.

use crate::node::{self, Entry, Words, MOST, NODE_WORDS};
use crate::order::Order;
use crate::report::Outcome;

#[derive(Clone, Copy)]
pub enum Operation {
    Find,
    Put { value: u64 },
    Post { edge: u64, child: u64 },
}

#[derive(Clone, Copy)]
pub enum Part {
    Left,
    Right,
    Own,
}

#[derive(Clone, Copy)]
pub enum Phase {
    Idle,
    Look,
    Copy { next: u8 },
    Check,
    Latch,
    Take,
    Fill { part: Part, next: u8 },
    Release,
    Undo,
    End(Outcome),
}

/// What a seat that holds a latch will write, worked out when the latch is won.
#[derive(Clone, Copy)]
pub struct Draft {
    pub freeing: u64,
    pub level: u64,
    pub outcome: Outcome,
    pub left: u64,
    pub right: u64,
    pub edge: u64,
    pub left_len: u8,
    pub len: u8,
    pub entries: [Entry; MOST + 1],
}

#[derive(Clone, Copy)]
pub struct Seat {
    pub operation: Operation,
    pub phase: Phase,
    pub node: u64,
    pub aim: u64,
    pub key: u64,
    pub copy: Words,
    pub draft: Draft,
}

impl Seat {
    pub const IDLE: Seat = Seat {
        operation: Operation::Find,
        phase: Phase::Idle,
        node: 0,
        aim: 0,
        key: 0,
        copy: [0; NODE_WORDS],
        draft: Draft {
            freeing: 0,
            level: 0,
            outcome: Outcome::Stored,
            left: 0,
            right: 0,
            edge: 0,
            left_len: 0,
            len: 0,
            entries: [Entry { key: 0, value: 0 }; MOST + 1],
        },
    };

    /// Drafts the update of the node that the seat has latched.
    pub fn draft_update<O: Order>(&mut self, order: &O, fan: u8, freeing: u64) {
        let n = node::len(&self.copy);
        for i in 0..n {
            self.draft.entries[i] = node::entry(&self.copy, i);
        }
        self.draft.outcome = Outcome::Stored;
        let len = match self.operation {
            Operation::Find => n,
            Operation::Put { value } => self.draft_put(order, n, value),
            Operation::Post { edge, child } => self.draft_post(order, n, edge, child),
        };
        let left_len = fan / 2 + 1;
        self.draft.freeing = freeing;
        self.draft.level = self.copy[1];
        self.draft.len = len as u8;
        self.draft.left_len = left_len;
        self.draft.edge = if usize::from(left_len) <= len {
            self.draft.entries[usize::from(left_len) - 1].key
        } else {
            0
        };
    }

    fn draft_put<O: Order>(&mut self, order: &O, n: usize, value: u64) -> usize {
        let key = self.key;
        let at = node::rank(&self.copy, order, key);
        let entries = &mut self.draft.entries;
        let len = if at < n && entries[at].key == key {
            self.draft.outcome = Outcome::Replaced(entries[at].value);
            n
        } else {
            entries.copy_within(at..n, at + 1);
            n + 1
        };
        entries[at] = Entry { key, value };
        len
    }

    fn draft_post<O: Order>(&mut self, order: &O, n: usize, edge: u64, child: u64) -> usize {
        if n == 0 {
            return 0;
        }
        let at = node::rank(&self.copy, order, edge).min(n - 1);
        let entries = &mut self.draft.entries;
        entries.copy_within(at..n, at + 1);
        entries[at].key = edge;
        entries[at + 1].value = child;
        n + 1
    }

    /// The node that a part of an update fills, and what it gets at this word.
    pub fn fill_word(&self, fan: u8, part: Part, word: u8) -> (u64, u64) {
        let draft = &self.draft;
        let entries = &draft.entries[..usize::from(draft.len)];
        let left = usize::from(draft.left_len);
        match part {
            Part::Left => (
                draft.left,
                node_word(self.copy[1], draft.right, draft.edge, &entries[..left], word),
            ),
            Part::Right => {
                let (link, high) = if self.node == 0 {
                    (0, 0)
                } else {
                    (self.copy[3], self.copy[4])
                };
                (
                    draft.right,
                    node_word(self.copy[1], link, high, &entries[left..], word),
                )
            }
            Part::Own => (self.node, self.own_word(fan, entries, left, word)),
        }
    }

    fn own_word(&self, fan: u8, entries: &[Entry], left: usize, word: u8) -> u64 {
        let draft = &self.draft;
        if draft.len <= fan {
            node_word(draft.level, self.copy[3], self.copy[4], entries, word)
        } else if self.node == 0 {
            let risen = [
                Entry {
                    key: draft.edge,
                    value: draft.left,
                },
                Entry {
                    key: 0,
                    value: draft.right,
                },
            ];
            node_word(draft.level, 0, 0, &risen, word)
        } else {
            node_word(draft.level, draft.right, draft.edge, &entries[..left], word)
        }
    }
}

fn node_word(level: u64, link: u64, high: u64, entries: &[Entry], word: u8) -> u64 {
    match word {
        1 => level,
        2 => entries.len() as u64,
        3 => link,
        4 => high,
        0 | 5 => 0,
        _ => match entries.get(usize::from(word - 6) / 2) {
            None => 0,
            Some(entry) if word % 2 == 0 => entry.key,
            Some(entry) => entry.value,
        },
    }
}
