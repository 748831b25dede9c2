//! The entries of pools for finds: dense nodes, sparse nodes and nodes full of entries of several
//! slots, at any shift, with few marks or marks in clusters; and reservations among them.

use reference::model::Entry;
use reference::random::Random;
use reference::tree::{Node, SLOTS, WIDEST_SHIFT};
use std::collections::BTreeMap;

/// Entries in index order.
pub fn random_entries(random: &mut Random) -> Vec<Entry> {
    let mut list = entries(random);
    if random.one_in(2) {
        reserve_some(random, &mut list);
    }
    set_marks(random, &mut list);
    list
}

/// Some of the entries of order 0 are reservations, or nearly all in a row.
fn reserve_some(random: &mut Random, list: &mut [Entry]) {
    let rare = [2, 3, 9][random.below(3) as usize];
    let from = random.below(list.len().max(1) as u64) as usize;
    let row = from..from + random.below(30) as usize;
    for (at, entry) in list.iter_mut().enumerate() {
        if entry.order == 0 && (random.one_in(rare) || row.contains(&at)) {
            *entry = Entry::reservation(entry.base);
        }
    }
}

/// How the slots of a node are filled.
#[derive(Clone, Copy)]
enum Style {
    /// Every slot, an entry to each.
    Dense,
    /// A few slots.
    Sparse,
    /// Entries of 1 to 32 slots, one after the other.
    Runs,
}

/// Entries to come, at most so many.
struct Plan {
    entries: Vec<Entry>,
    most: usize,
}

/// The entries of one to three nodes and of nodes below them, in index order, without marks.
fn entries(random: &mut Random) -> Vec<Entry> {
    let mut plan = Plan { entries: Vec::new(), most: 0 };
    let mut roots: Vec<Node> = Vec::new();
    for _ in 0..=random.below(3) {
        let node = root(random);
        if roots.iter().all(|root| !root.range().meets(node.range())) {
            roots.push(node);
            plan.most += 30 + random.below(60) as usize;
            plan.fill(random, node);
        }
    }
    plan.entries.sort_by_key(|entry| entry.base);
    plan.entries
}

/// A node at the start, at the end of all indices, or anywhere; mostly of a small shift.
fn root(random: &mut Random) -> Node {
    let shift = match random.below(8) {
        0..=3 => 0,
        4 | 5 => 6,
        _ => 6 * random.below(11) as u8,
    };
    let index = match random.below(4) {
        0 => 0,
        1 => u64::MAX,
        2 => random.below(8) << (shift + 6).min(WIDEST_SHIFT),
        _ => random.word() >> random.below(64),
    };
    Node::around(shift, index)
}

fn style(random: &mut Random) -> Style {
    [Style::Dense, Style::Sparse, Style::Runs, Style::Runs][random.below(4) as usize]
}

impl Plan {
    fn fill(&mut self, random: &mut Random, node: Node) {
        let style = style(random);
        // Those of shift 60 have 16 slots, and no run of 16.
        let (slots, widest) = if node.shift == WIDEST_SHIFT { (16, 3) } else { (SLOTS, 5) };
        // Few wide runs, or many narrow ones.
        let widest = 1 + random.below(widest);
        let mut slot = 0;
        loop {
            let (gap, width) = match style {
                Style::Dense => (0, 1),
                Style::Sparse => (random.below(20), 1 << (random.below(12).saturating_sub(9))),
                Style::Runs => {
                    (random.below(12) / 11 * random.below(4), 1 << random.below(widest + 1))
                }
            };
            slot += gap as usize;
            let width = fitting(random, &mut slot, width);
            if slot + width > slots || self.entries.len() >= self.most {
                return;
            }
            self.put(random, node, slot, width);
            slot += width;
        }
    }

    /// An entry over these slots or, at times, a node below the first of them.
    fn put(&mut self, random: &mut Random, node: Node, slot: usize, width: usize) {
        match node.child(slot) {
            Some(child) if random.one_in(12) => self.fill(random, child),
            _ => {
                let order = node.shift + width.ilog2() as u8;
                let base = node.slot_range(slot).start as u64;
                self.entries.push(Entry { base, order, word: word(random), marks: 0 });
            }
        }
    }
}

/// A run begins at a multiple of its width: either it begins later, or it is narrower.
fn fitting(random: &mut Random, slot: &mut usize, width: usize) -> usize {
    if random.one_in(4) {
        *slot = slot.next_multiple_of(width);
    }
    width.min(1 << slot.trailing_zeros().min(5))
}

fn word(random: &mut Random) -> u64 {
    let number = 1 + random.below(500);
    if random.one_in(2) {
        4 * number
    } else {
        2 * number + 1
    }
}

/// Each mark on none, few, a cluster, all but a cluster, or one entry of most nodes.
fn set_marks(random: &mut Random, list: &mut [Entry]) {
    let count = list.len() as u64;
    for mark in 0..3 {
        let from = random.below(count.max(1));
        let to = (from + 1 + random.below(12)).min(count);
        let (way, rare) = (random.below(8), [10, 30, 97][random.below(3) as usize]);
        let chosen = one_of_most_nodes(random, list);
        for at in 0..count {
            let set = match way {
                0 => false,
                1 | 2 => random.one_in(rare),
                3 => (from..to).contains(&at),
                4 => !(from..to).contains(&at),
                _ => chosen.contains(&(at as usize)),
            };
            let entry = &mut list[at as usize];
            entry.marks |= u8::from(set && !entry.is_reservation()) << mark;
        }
    }
}

/// The node in which the entry lies.
fn node_of(entry: Entry) -> Node {
    Node::around(entry.order - entry.order % 6, entry.base)
}

/// The numbers of entries, at most one in a node, the last or any.
fn one_of_most_nodes(random: &mut Random, list: &[Entry]) -> Vec<usize> {
    let mut by_node: BTreeMap<Node, Vec<usize>> = BTreeMap::new();
    for (number, entry) in list.iter().enumerate() {
        by_node.entry(node_of(*entry)).or_default().push(number);
    }
    let mut chosen = Vec::new();
    for numbers in by_node.values() {
        let last = numbers.len() - 1;
        match random.below(4) {
            0 => {}
            1 => chosen.push(numbers[last]),
            _ => chosen.push(numbers[random.below(last as u64 + 1) as usize]),
        }
    }
    chosen
}
