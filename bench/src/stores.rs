//! Stores, erases, loads and marks over several trees, for the comparison of two builds; some also
//! for that with the engines.

use crate::loads::*;
use std::collections::BTreeSet;
use xapool_host::{Command, Word, MOST_NODES};

/// Stores below 2^64 take nine nodes each, and 17 for the first two shifts: 917 in all.
const WIDE_STORES: usize = 100;

/// The slots of a node.
const SLOTS: u64 = 64;

/// As many as are wanted of a dense load of so many indices.
pub fn loads(indices: u64) -> Vec<Load> {
    vec![
        dense(indices),
        shuffled(indices),
        sparse_below("sparse stores below 2^20", 20, OLDER.entries, indices / 2),
        sparse(indices / 2, OLDER),
        sparse_below("sparse stores below 2^64", 64, WIDE_STORES, indices / 4),
        mixed_orders(indices / 2, OLDER),
        dense_of_order("stores of order 2", 2, indices, 1),
        dense_of_order("stores of order 5", 5, indices, 8),
        overwrites(indices),
        growing(),
        growing_and_shrinking(),
        erases(indices),
        sparse_erases(indices / 4, OLDER),
        pairs(indices),
        sparse_pairs(indices / 2),
        hits(indices),
        misses(indices),
        marks(indices),
    ]
}

fn shuffled(indices: u64) -> Load {
    let pools = stores_by_pool(&Random(7).shuffled(dense_stores(indices)), usize::MAX);
    Load::new("stores in random order", format!("order 0 at indices 0 to {}", indices - 1), pools)
}

/// An index of at most so many bits.
fn below_bits(random: &mut Random, bits: u32) -> u64 {
    random.below(u64::MAX) >> (64 - bits)
}

fn sparse_below(name: &'static str, bits: u32, a_pool: usize, stores: u64) -> Load {
    let mut random = Random(8);
    let stores: Vec<Command> = (0..stores).map(|_| store(below_bits(&mut random, bits))).collect();
    let pools = stores_by_pool(&stores, a_pool);
    let about = format!("order 0 at random, {a_pool} to a pool, pools: {}", pools.len());
    Load::new(name, about, pools)
}

pub fn mixed_orders(stores: u64, scatter: Scatter) -> Load {
    let Scatter { entries, nodes } = scatter;
    let mut random = Random(9);
    let mut one = || {
        let (index, order) = (below_bits(&mut random, 20), random.below(13) as u8);
        store_order(index >> order << order, order)
    };
    let stores: Vec<Command> = (0..stores).map(|_| one()).collect();
    let pools = stores_by_pool(&stores, entries);
    let about = format!("at random below 2^20, {entries} to a pool, pools: {}", pools.len());
    Load { nodes, ..Load::new("stores of orders 0 to 12", about, pools) }
}

/// Entries of one order side by side, on so many pools.
fn dense_of_order(name: &'static str, order: u8, indices: u64, pools: usize) -> Load {
    let work = |_| Work {
        setup: Vec::new(),
        timed: (0..indices >> order).map(|number| store_order(number << order, order)).collect(),
    };
    let about = format!("side by side, indices 0 to {}, pools: {pools}", indices - 1);
    Load::new(name, about, (0..pools).map(work).collect())
}

pub fn overwrites(indices: u64) -> Load {
    let mut random = Random(10);
    let one = |index| Command::Store { index, order: 0, word: Word(4 * (index + 1)) };
    let timed = (0..indices / 2).map(|_| one(random.below(indices))).collect();
    let pools = vec![Work { setup: dense_stores(indices), timed }];
    Load::new("overwrites", format!("at random over {indices} dense entries"), pools)
}

/// 0, 64, 4096, .. 2^60: each but the first makes the head grow.
fn growing_indices() -> impl DoubleEndedIterator<Item = u64> {
    (0..11).map(|tier| if tier == 0 { 0 } else { 1 << (6 * tier) })
}

/// Small pools, so that the check that is taken off is no more than a few times the stores.
fn growing() -> Load {
    let work = |_| Work { setup: Vec::new(), timed: growing_indices().map(store).collect() };
    let pools = (0..50).map(work).collect();
    let about = "at 0, 64, 4096, .. 2^60 of an empty pool of 70 nodes";
    Load { nodes: 70, ..Load::new("stores, the head grows", about, pools) }
}

fn growing_and_shrinking() -> Load {
    let mut once: Vec<Command> = growing_indices().map(store).collect();
    once.extend(growing_indices().rev().map(|index| Command::Erase { index }));
    // One batch.
    let work = |_| Work { setup: Vec::new(), timed: once.repeat(24) };
    let about = "the same, then erases from the highest, again and again";
    Load::new("the head grows and shrinks", about, (0..10).map(work).collect())
}

pub fn erases(indices: u64) -> Load {
    let erase = |index| Command::Erase { index };
    let timed = Random(11).shuffled((0..indices).map(erase).collect());
    let pools = vec![Work { setup: dense_stores(indices), timed }];
    Load::new("erases", format!("in random order, all of {indices} dense entries"), pools)
}

/// Different indices at random below 2^24, in random order.
fn different(random: &mut Random, count: usize) -> Vec<u64> {
    let mut all = BTreeSet::new();
    while all.len() < count {
        all.insert(random.below(1 << 24));
    }
    random.shuffled(all.into_iter().collect())
}

pub fn sparse_erases(erases: u64, scatter: Scatter) -> Load {
    let Scatter { entries, nodes } = scatter;
    let mut random = Random(12);
    let mut work = |_| {
        let indices = different(&mut random, entries);
        let timed = indices.iter().map(|index| Command::Erase { index: *index }).collect();
        Work { setup: random.shuffled(indices.into_iter().map(store).collect()), timed }
    };
    let pools: Vec<Work> = (0..=erases / entries as u64).map(&mut work).collect();
    let about = format!("{entries} at random below 2^24 to a pool, pools: {}", pools.len());
    Load { nodes, ..Load::new("erases, sparse", about, pools) }
}

fn pairs(indices: u64) -> Load {
    let mut random = Random(13);
    let pair = |index| [Command::Erase { index }, store(index)];
    let timed = (0..indices / 4).flat_map(|_| pair(random.below(indices))).collect();
    let pools = vec![Work { setup: dense_stores(indices), timed }];
    Load::new("erase and store pairs", format!("at random in {indices} dense entries"), pools)
}

/// Each pair frees nodes and takes others.
fn sparse_pairs(commands: u64) -> Load {
    let mut random = Random(14);
    let mut there = different(&mut random, 300);
    let setup = there.iter().copied().map(store).collect();
    let mut timed = Vec::new();
    for _ in 0..commands / 2 {
        let at = random.below(300) as usize;
        timed.push(Command::Erase { index: there[at] });
        there[at] = loop {
            let index = random.below(1 << 24);
            if !there.contains(&index) {
                break index;
            }
        };
        timed.push(store(there[at]));
    }
    let about = "300 entries below 2^24, one erased and another stored at random";
    Load::new("erase and store pairs, sparse", about, vec![Work { setup, timed }])
}

pub fn hits(indices: u64) -> Load {
    let mut random = Random(15);
    let load = |index| Command::Load { index };
    let timed = (0..indices).map(|_| load(random.below(indices))).collect();
    let pools = vec![Work { setup: dense_stores(indices), timed }];
    Load::new("loads", format!("at random of {indices} dense entries"), pools)
}

pub fn misses(indices: u64) -> Load {
    let mut random = Random(16);
    let setup: Vec<Command> = one_in_97(indices).map(store).collect();
    // One less than the last index of a stretch, at most.
    let mut absent = || {
        let index = random.below(indices);
        index - u64::from(index % MARKED_EVERY == MARKED_EVERY - 1)
    };
    let timed = (0..indices).map(|_| Command::Load { index: absent() }).collect();
    let about = format!("at random between entries, one index in {MARKED_EVERY} stored");
    Load { answer: 10, ..Load::new("loads that miss", about, vec![Work { setup, timed }]) }
}

pub fn marks(indices: u64) -> Load {
    let mut random = Random(17);
    let mut one = || {
        let (index, mark) = (random.below(indices), random.below(3) as u8);
        match random.below(2) {
            0 => Command::Mark { index, mark },
            _ => Command::Unmark { index, mark },
        }
    };
    let timed = (0..indices).map(|_| one()).collect();
    let pools = vec![Work { setup: dense_stores(indices), timed }];
    Load::new("marks and unmarks", format!("at random of {indices} dense entries"), pools)
}

/// So many nodes side by side, and those over them up to a head.
fn with_those_over(nodes: u64) -> u64 {
    match nodes {
        1 => 1,
        _ => nodes + with_those_over(nodes.div_ceil(SLOTS)),
    }
}

/// Entries, each alone in its leaf, that take all nodes of a pool; then one after the other goes, and
/// another comes in a leaf that there was not: each takes the one node that is free.
pub fn churn(commands: u64) -> Load {
    // Twice as many leaves as there can be: all nodes over them are there and stay.
    let blocks = 2 * MOST_NODES as u64;
    let leaves = MOST_NODES as u64 - with_those_over(blocks / SLOTS);
    let mut random = Random(18);
    let mut there = random.shuffled((0..blocks).collect());
    let mut absent = there.split_off(leaves as usize);
    let setup = there.iter().map(|block| store(SLOTS * block)).collect();
    let mut timed = Vec::new();
    for _ in 0..commands / 2 {
        let gone = random.below(leaves) as usize;
        let come = random.below(absent.len() as u64) as usize;
        timed.push(Command::Erase { index: SLOTS * there[gone] });
        timed.push(store(SLOTS * absent[come]));
        std::mem::swap(&mut there[gone], &mut absent[come]);
    }
    let about =
        format!("{leaves} leaves of one entry, one erased and another stored, no node left free");
    let pools = vec![Work { setup, timed }];
    Load { nodes: MOST_NODES, ..Load::new("churn in a full pool", about, pools) }
}
