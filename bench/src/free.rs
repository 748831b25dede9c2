//! What it costs to find free nodes where most are in use, or that there are too few, at three sizes of
//! pool.

use crate::loads::*;
use std::collections::BTreeSet;
use xapool_host::Command;

pub const NODES: [usize; 3] = [40, 1000, 16_384];

/// An entry here makes the head's shift 18, whatever else there is; it takes four nodes.
const FAR: u64 = 63 << 18;
const FAR_NODES: usize = 4;
/// Nothing lies in this block of a node of shift 12: a store there needs three nodes.
const AWAY: u64 = 40 << 18;
/// An erase and a store take 31 bytes, so these are one batch.
const PAIRS: usize = 1000;
/// So many stores fill a batch.
const STORES: u64 = 1638;
const TOO_FEW_NODES: u8 = 11;

/// The loads on a pool of so many nodes.
pub fn loads(nodes: usize) -> Vec<Load> {
    [churn(nodes), three_free(nodes), none_free(nodes)]
        .into_iter()
        .map(|load| Load { nodes, ..load })
        .collect()
}

/// Indices of entries that take exactly so many nodes: one in each node of shift 0, side by side from
/// 0 on. Where the next would take more nodes than are left, one beside FAR takes one.
pub fn filling(nodes: usize) -> Vec<u64> {
    let (mut all, mut used, mut leaf, mut beside) = (vec![FAR], FAR_NODES, 0, 1);
    while used < nodes {
        let needed = 1 + usize::from(leaf % 64 == 0) + usize::from(leaf % 4096 == 0);
        if used + needed <= nodes {
            all.push(64 * leaf);
            leaf += 1;
            used += needed;
        } else {
            all.push(FAR + 64 * beside);
            beside += 1;
            used += 1;
        }
    }
    all
}

/// Nodes of shift 0, as their first indices, that with FAR take so many nodes or one or two fewer: at
/// random among twice as many.
fn scattered(random: &mut Random, nodes: usize) -> Vec<u64> {
    let (mut leaves, mut over, mut over_those) =
        (BTreeSet::new(), BTreeSet::new(), BTreeSet::new());
    let mut all = Vec::new();
    while FAR_NODES + leaves.len() + over.len() + over_those.len() + 2 < nodes {
        let leaf = random.below(2 * nodes as u64);
        if leaves.insert(leaf) {
            over.insert(leaf / 64);
            over_those.insert(leaf / 4096);
            all.push(64 * leaf);
        }
    }
    all
}

/// Nine tenths of the nodes in use, each pair frees one or more and takes as many.
fn churn(nodes: usize) -> Load {
    let mut random = Random(22);
    let mut there = scattered(&mut random, nodes * 9 / 10);
    let mut live: BTreeSet<u64> = there.iter().copied().collect();
    let setup = std::iter::once(FAR).chain(there.iter().copied()).map(store).collect();
    let mut timed = Vec::new();
    for _ in 0..PAIRS {
        let at = random.below(there.len() as u64) as usize;
        live.remove(&there[at]);
        timed.push(Command::Erase { index: there[at] });
        there[at] = loop {
            let index = 64 * random.below(2 * nodes as u64);
            if live.insert(index) {
                break index;
            }
        };
        timed.push(store(there[at]));
    }
    let about = "an entry erased and another stored, at random, nine tenths of the nodes in use";
    Load::new("churn", about, vec![Work { setup, timed }])
}

/// The nodes are numbered as they are taken: 0 to 6 over FAR and index 0, 7 over index 64, and the last
/// two are left.
fn three_free(nodes: usize) -> Load {
    let mut setup: Vec<Command> = filling(nodes - 2).into_iter().map(store).collect();
    setup.push(Command::Erase { index: 64 });
    let timed = [store(AWAY), Command::Erase { index: AWAY }].repeat(PAIRS);
    let about = "a store that needs three nodes and its erase, node 7 and the last two free";
    Load::new("three nodes free", about, vec![Work { setup, timed }])
}

fn none_free(nodes: usize) -> Load {
    let setup = filling(nodes).into_iter().map(store).collect();
    let timed = (0..STORES).map(|number| store(AWAY + 64 * number)).collect();
    let about = "stores that need three nodes, no node free: answer 11";
    let load = Load::new("no node free", about, vec![Work { setup, timed }]);
    Load { answer: TOO_FEW_NODES, ..load }
}
