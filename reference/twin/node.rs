//! What a seat reads off its copy of a node.

use crate::order::Order;

pub const NODE_WORDS: usize = 32;
/// The most entries of a node.
pub const MOST: usize = 13;

pub type Words = [u64; NODE_WORDS];

#[derive(Clone, Copy)]
pub struct Entry {
    pub key: u64,
    pub value: u64,
}

pub fn len(copy: &Words) -> usize {
    copy[2].min(MOST as u64) as usize
}

pub fn entry(copy: &Words, i: usize) -> Entry {
    Entry {
        key: copy[6 + 2 * i],
        value: copy[7 + 2 * i],
    }
}

pub fn covers<O: Order>(copy: &Words, order: &O, key: u64) -> bool {
    copy[3] == 0 || !order.before(copy[4], key)
}

/// How many entries stand before the first one whose key isn't before `key`.
pub fn rank<O: Order>(copy: &Words, order: &O, key: u64) -> usize {
    let n = len(copy);
    (0..n)
        .find(|&i| !order.before(entry(copy, i).key, key))
        .unwrap_or(n)
}

/// The child that leads to a key; 0 of a node with no entries.
pub fn child<O: Order>(copy: &Words, order: &O, key: u64) -> u64 {
    match len(copy) {
        0 => 0,
        n => entry(copy, rank(copy, order, key).min(n - 1)).value,
    }
}

/// The value of a key in a leaf.
pub fn find<O: Order>(copy: &Words, order: &O, key: u64) -> Option<u64> {
    let i = rank(copy, order, key);
    (i < len(copy) && entry(copy, i).key == key).then(|| entry(copy, i).value)
}
