//! Holds the cells of an index against the plain map.

use std::collections::BTreeMap;

use crate::call::{Call, Refusal};
use crate::index::{Index, SEATS};
use crate::judge::Judge;
use crate::node::{Node, NODE_WORDS};
use crate::trial::Witness;

/// What the walk over the leaves saw.
#[derive(Clone, Copy, Default)]
pub struct Shape {
    pub nodes: u64,
    pub levels: u64,
    pub pairs: u64,
}

/// Ends all operations, and compares what the index then holds with the plain map.
pub fn examine(index: &mut Index, judge: &mut Judge) -> Result<Shape, String> {
    if !judge.formatted() {
        return Ok(Shape::default());
    }
    if !(0..SEATS).any(|seat| judge.holds_latch(seat)) {
        compare(index, judge.plain_map())?;
    }
    settle(index, judge)?;
    let shape = compare(index, judge.plain_map())?;
    find_all(index, judge)?;
    Ok(shape)
}

/// Frees all latches first, so that no seat is turned back for ever.
fn settle(index: &mut Index, judge: &mut Judge) -> Result<(), String> {
    for seat in 0..SEATS {
        while judge.holds_latch(seat) {
            step(index, judge, seat)?;
        }
    }
    for seat in 0..SEATS {
        while judge.works(seat) {
            step(index, judge, seat)?;
        }
    }
    Ok(())
}

fn step(index: &mut Index, judge: &mut Judge, seat: usize) -> Result<(), String> {
    make(index, judge, Call::Step { seat: seat as u64 })
}

fn make(index: &mut Index, judge: &mut Judge, call: Call) -> Result<(), String> {
    let answer = index.call(call);
    judge.see(call, &answer)
}

/// Finds each key of the plain map through the index. The judge holds the endings against the find law.
fn find_all(index: &mut Index, judge: &mut Judge) -> Result<(), String> {
    let keys: Vec<u64> = judge.plain_map().keys().copied().collect();
    for (at, key) in keys.into_iter().enumerate() {
        let seat = at % SEATS;
        make(
            index,
            judge,
            Call::Find {
                seat: seat as u64,
                key,
            },
        )?;
        while judge.works(seat) {
            step(index, judge, seat)?;
        }
    }
    Ok(())
}

fn compare(index: &Index, plain_map: &BTreeMap<u64, u64>) -> Result<Shape, String> {
    let (pairs, levels) = walk(index)?;
    for pair in pairs.windows(2) {
        if !index.order().before(pair[0].0, pair[1].0) {
            return Err(format!(
                "the leaves don't ascend: {} and then {}",
                pair[0].0, pair[1].0
            ));
        }
    }
    let held: BTreeMap<u64, u64> = pairs.iter().copied().collect();
    if &held != plain_map {
        return Err(format!(
            "the leaves hold {held:?}, the plain map {plain_map:?}"
        ));
    }
    Ok(Shape {
        nodes: index.node_count(),
        levels,
        pairs: pairs.len() as u64,
    })
}

/// All pairs of the leaves from left to right, and the number of levels.
fn walk(index: &Index) -> Result<(Vec<(u64, u64)>, u64), String> {
    let refused = |refusal: Refusal| format!("the walk was refused: {refusal:?}");
    let mut node = read_node(index, 0).map_err(refused)?;
    let levels = node.level() + 1;
    for level in (0..node.level()).rev() {
        let first = *node.entries().first().ok_or("an inner node has no entry")?;
        node = read_node(index, first.word).map_err(refused)?;
        if node.level() != level {
            return Err(format!("node {} is not at level {level}", first.word));
        }
    }
    let mut pairs = Vec::new();
    for _ in 0..index.node_count() {
        pairs.extend(node.entries().iter().map(|entry| (entry.key, entry.word)));
        if node.link() == 0 {
            return Ok((pairs, levels));
        }
        node = read_node(index, node.link()).map_err(refused)?;
    }
    Err("the links of the leaves don't end".to_string())
}

fn read_node(index: &Index, number: u64) -> Result<Node, Refusal> {
    let mut node = Node::empty();
    for (at, word) in node.words.iter_mut().enumerate() {
        let cell = number
            .saturating_mul(NODE_WORDS as u64)
            .saturating_add(at as u64);
        *word = index.memory().read(cell)?;
    }
    Ok(node)
}
