//! The canonical tree of a list (document 01: the tree a list prescribes).

use crate::model::{beginning_in, covering, marks_of, Entry, Range, INDEX_END};
use std::collections::BTreeSet;

pub const WIDEST_SHIFT: u8 = 60;
pub const SLOTS: usize = 64;

/// A node: the aligned block number `block` of 64 * 2^shift indices.
#[derive(Clone, Copy, Debug, PartialEq, Eq, PartialOrd, Ord)]
pub struct Node {
    pub shift: u8,
    pub block: u64,
}

/// How many indices a node of this shift covers, before the cut at 2^64.
fn width(shift: u8) -> u128 {
    64 << shift
}

impl Node {
    /// The node of this shift whose block holds the index.
    pub fn around(shift: u8, index: u64) -> Node {
        Node { shift, block: (u128::from(index) / width(shift)) as u64 }
    }

    fn start(self) -> u128 {
        u128::from(self.block) * width(self.shift)
    }

    /// The node's block, cut at 2^64.
    pub fn range(self) -> Range {
        Range { start: self.start(), end: (self.start() + width(self.shift)).min(INDEX_END) }
    }

    /// The indices of one slot; none where the slot lies past 2^64.
    pub fn slot_range(self, slot: usize) -> Range {
        let start = self.start() + ((slot as u128) << self.shift);
        Range { start: start.min(INDEX_END), end: (start + (1 << self.shift)).min(INDEX_END) }
    }

    /// The slot that leads to an index in the node's block.
    pub fn slot_of(self, index: u64) -> usize {
        ((u128::from(index) - self.start()) >> self.shift) as usize
    }

    /// The block of this slot as a node of the next lower shift, if there is a lower shift.
    pub fn child(self, slot: usize) -> Option<Node> {
        let shift = self.shift.checked_sub(6)?;
        let start = self.slot_range(slot).start;
        (start < INDEX_END).then(|| Node::around(shift, start as u64))
    }

    /// The node's parent and the slot there, if there is a higher shift.
    pub fn parent(self) -> Option<(Node, usize)> {
        let index = self.start() as u64;
        let parent = (self.shift < WIDEST_SHIFT).then(|| Node::around(self.shift + 6, index))?;
        Some((parent, parent.slot_of(index)))
    }
}

#[derive(Clone, Copy, Debug, PartialEq, Eq)]
pub enum Head {
    Empty,
    Reserved,
    Entry(Entry),
    Node(Node),
}

/// What a slot holds; a sibling counts as its entry.
#[derive(Clone, Copy, Debug, PartialEq, Eq)]
pub enum Slot {
    Empty,
    Reserved,
    Entry(Entry),
    Sibling(Entry),
    Node(Node),
}

/// All shifts, from 0 to 60.
pub fn shifts() -> impl Iterator<Item = u8> {
    (0..=WIDEST_SHIFT).step_by(6)
}

/// Whether every run lies below 64 * 2^shift and every order is below shift + 6.
fn head_fits(list: &[Entry], shift: u8) -> bool {
    list.iter().all(|entry| entry.range().end <= width(shift) && entry.order < shift + 6)
}

pub fn head(list: &[Entry]) -> Head {
    match list {
        [] => Head::Empty,
        [only] if only.base == 0 && only.is_reservation() => Head::Reserved,
        [only] if only.base == 0 && only.order == 0 => Head::Entry(*only),
        _ => {
            let shift = shifts().find(|shift| head_fits(list, *shift));
            Head::Node(Node { shift: shift.expect("every list fits shift 60"), block: 0 })
        }
    }
}

/// The head node, and below it a node for each block with an entry of an order smaller than the
/// node's shift + 6 (R20).
pub fn nodes(list: &[Entry]) -> BTreeSet<Node> {
    let Head::Node(head) = head(list) else {
        return BTreeSet::new();
    };
    let mut nodes = BTreeSet::from([head]);
    for shift in shifts().take_while(|shift| *shift < head.shift) {
        for entry in list.iter().filter(|entry| entry.order < shift + 6) {
            nodes.insert(Node::around(shift, entry.base));
        }
    }
    nodes
}

/// A list with its tree.
pub struct Tree<'a> {
    pub list: &'a [Entry],
    pub head: Head,
    pub nodes: BTreeSet<Node>,
}

impl Tree<'_> {
    pub fn of(list: &[Entry]) -> Tree<'_> {
        Tree { list, head: head(list), nodes: nodes(list) }
    }

    pub fn slot(&self, node: Node, slot: usize) -> Slot {
        let start = node.slot_range(slot).start;
        if start == INDEX_END {
            return Slot::Empty;
        }
        if let Some(child) = node.child(slot).filter(|child| self.nodes.contains(child)) {
            return Slot::Node(child);
        }
        match covering(self.list, start as u64) {
            Some(entry) if entry.order - entry.order % 6 != node.shift => Slot::Empty,
            Some(entry) if entry.is_reservation() => Slot::Reserved,
            Some(entry) if u128::from(entry.base) == start => Slot::Entry(entry),
            Some(entry) => Slot::Sibling(entry),
            None => Slot::Empty,
        }
    }

    /// The marks of a slot: those of its entry, or of any entry below; a sibling's and a
    /// reservation's are clear.
    pub fn slot_marks(&self, node: Node, slot: usize) -> u8 {
        match self.slot(node, slot) {
            Slot::Empty | Slot::Reserved | Slot::Sibling(_) => 0,
            Slot::Entry(entry) => entry.marks,
            Slot::Node(child) => self.marks_below(child),
        }
    }

    /// The marks that any entry in the node's block has.
    pub fn marks_below(&self, node: Node) -> u8 {
        marks_of(beginning_in(self.list, node.range()))
    }

    /// The number of nodes over the index, by their blocks.
    pub fn nodes_over(&self, index: u64) -> usize {
        self.nodes.iter().filter(|node| node.range().holds(index)).count()
    }
}
