//! A node's 32 words, and the content that a write gives it.

use crate::order::Order;

pub const NODE_WORDS: usize = 32;
const MOST_ENTRIES: usize = 13;
const FIRST_ENTRY: usize = 6;

#[derive(Clone, Copy, Debug, PartialEq, Eq)]
pub struct Entry {
    pub key: u64,
    /// The value in a leaf, the child in an inner node.
    pub word: u64,
}

/// A copy of a node's words.
#[derive(Clone, Copy, Debug, PartialEq, Eq)]
pub struct Node {
    pub words: [u64; NODE_WORDS],
}

impl Node {
    pub fn empty() -> Node {
        Node {
            words: [0; NODE_WORDS],
        }
    }

    /// A node with lock word 0.
    pub fn build(level: u64, link: u64, high: u64, entries: &[Entry]) -> Node {
        let mut words = [0; NODE_WORDS];
        words[1] = level;
        words[2] = entries.len() as u64;
        words[3] = link;
        words[4] = high;
        for (at, entry) in entries.iter().enumerate().take(MOST_ENTRIES) {
            words[FIRST_ENTRY + 2 * at] = entry.key;
            words[FIRST_ENTRY + 2 * at + 1] = entry.word;
        }
        Node { words }
    }

    pub fn lock(&self) -> u64 {
        self.words[0]
    }

    pub fn level(&self) -> u64 {
        self.words[1]
    }

    pub fn is_leaf(&self) -> bool {
        self.level() == 0
    }

    pub fn link(&self) -> u64 {
        self.words[3]
    }

    pub fn high(&self) -> u64 {
        self.words[4]
    }

    fn size(&self) -> usize {
        self.words[2].min(MOST_ENTRIES as u64) as usize
    }

    fn entry(&self, at: usize) -> Entry {
        Entry {
            key: self.words[FIRST_ENTRY + 2 * at],
            word: self.words[FIRST_ENTRY + 2 * at + 1],
        }
    }

    pub fn entries(&self) -> Vec<Entry> {
        (0..self.size()).map(|at| self.entry(at)).collect()
    }

    pub fn covers(&self, order: Order, key: u64) -> bool {
        self.link() == 0 || !order.before(self.high(), key)
    }

    /// The place of the first entry whose key isn't before the sought one, or the size.
    fn place(&self, order: Order, key: u64) -> usize {
        (0..self.size())
            .find(|&at| !order.before(self.entry(at).key, key))
            .unwrap_or(self.size())
    }

    /// The value of a key in a leaf.
    pub fn value(&self, order: Order, key: u64) -> Option<u64> {
        let place = self.place(order, key);
        let here = place < self.size() && self.entry(place).key == key;
        here.then(|| self.entry(place).word)
    }

    /// The place of the inner entry chosen for a key. The last entry's key is not compared.
    fn chosen(&self, order: Order, key: u64) -> Option<usize> {
        let last = self.size().checked_sub(1)?;
        Some(
            (0..last)
                .find(|&at| !order.before(self.entry(at).key, key))
                .unwrap_or(last),
        )
    }

    /// The child that an inner node leads to.
    pub fn child(&self, order: Order, key: u64) -> u64 {
        self.chosen(order, key).map_or(0, |at| self.entry(at).word)
    }

    /// The entries of a leaf with a pair put into them.
    pub fn with_pair(&self, order: Order, pair: Entry) -> Vec<Entry> {
        let mut entries = self.entries();
        let place = self.place(order, pair.key);
        match entries.get_mut(place) {
            Some(entry) if entry.key == pair.key => *entry = pair,
            _ => entries.insert(place, pair),
        }
        entries
    }

    /// The entries of an inner node with a split posted into them.
    pub fn with_split(&self, order: Order, split: Split) -> Vec<Entry> {
        let mut entries = self.entries();
        if let Some(at) = self.chosen(order, split.key) {
            let left = Entry {
                key: split.key,
                word: entries[at].word,
            };
            entries[at].word = split.right;
            entries.insert(at, left);
        }
        entries
    }
}

/// A split: the last left key, and the right node.
#[derive(Clone, Copy, Debug, PartialEq, Eq)]
pub struct Split {
    pub key: u64,
    pub right: u64,
}

/// What a write stores: whole taken nodes, then the latched node without its lock word.
#[derive(Clone, Debug, PartialEq, Eq)]
pub struct Plan {
    pub taken: Vec<Node>,
    pub latched: Node,
    /// The split to post one level higher.
    pub post: Option<Split>,
}

impl Plan {
    /// New content that fits into the node.
    pub fn keep(old: &Node, entries: &[Entry]) -> Plan {
        let latched = Node::build(old.level(), old.link(), old.high(), entries);
        Plan {
            taken: Vec::new(),
            latched,
            post: None,
        }
    }

    /// A split of a node other than the root, with the taken node `right`.
    pub fn split(old: &Node, entries: &[Entry], fan: u64, right: u64) -> Plan {
        let (left, rest, key) = halves(entries, fan);
        Plan {
            taken: vec![Node::build(old.level(), old.link(), old.high(), rest)],
            latched: Node::build(old.level(), right, key, left),
            post: Some(Split { key, right }),
        }
    }

    /// A split of the root, with the taken nodes `first` and `first + 1`.
    pub fn rise(old: &Node, entries: &[Entry], fan: u64, first: u64) -> Plan {
        let (left, rest, key) = halves(entries, fan);
        let second = first + 1;
        let children = [
            Entry { key, word: first },
            Entry {
                key: 0,
                word: second,
            },
        ];
        Plan {
            taken: vec![
                Node::build(old.level(), second, key, left),
                Node::build(old.level(), 0, 0, rest),
            ],
            latched: Node::build(old.level() + 1, 0, 0, &children),
            post: None,
        }
    }
}

/// The left entries, the others, and the last left key.
fn halves(entries: &[Entry], fan: u64) -> (&[Entry], &[Entry], u64) {
    let go_left = ((fan + 2) / 2) as usize;
    let (left, rest) = entries.split_at(go_left.min(entries.len()));
    (left, rest, left.last().map_or(0, |entry| entry.key))
}
