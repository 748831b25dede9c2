//! The numbering of nodes and all words of the pool, worked out afresh from a list.

use crate::model::{marks_of, Entry, RESERVED};
use crate::tree::{nodes, Head, Node, Slot, Tree, SLOTS};
use std::cmp::Reverse;
use std::collections::{BTreeMap, BTreeSet};

pub const ANCHOR_WORDS: usize = 4;
pub const MOST_NODES: usize = 16_384;
pub const NODE_OFFSET: u64 = 1024;

/// Fields of a node, counted from its first word; the count of filled slots is of request P7.
pub const SHIFT_FIELD: usize = 0;
pub const OWNER_FIELD: usize = 1;
pub const COUNT_FIELD: usize = 2;
pub const MARK_FIELDS: usize = 3;
pub const SLOT_FIELDS: usize = 6;
pub const NODE_WORDS: usize = SLOT_FIELDS + SLOTS;

/// N, if a pool of N nodes has this length and N is allowed.
pub fn node_count(length: usize) -> Option<usize> {
    let count = length.checked_sub(ANCHOR_WORDS)? / NODE_WORDS;
    ((1..=MOST_NODES).contains(&count) && pool_length(count) == length).then_some(count)
}

pub const fn pool_length(count: usize) -> usize {
    ANCHOR_WORDS + NODE_WORDS * count
}

/// The place of the first word of node number `number`.
pub fn node_place(number: usize) -> usize {
    ANCHOR_WORDS + NODE_WORDS * number
}

pub fn sibling_word(slot: usize) -> u64 {
    4 * slot as u64 + 2
}

pub fn node_word(number: usize) -> u64 {
    4 * (NODE_OFFSET + number as u64) + 2
}

/// A list and what stands at each node number: a node, or nothing (a free node).
#[derive(Clone, Debug, PartialEq, Eq)]
pub struct State {
    pub list: Vec<Entry>,
    pub places: Vec<Option<Node>>,
}

impl State {
    /// What init leaves: no entries, all nodes free.
    pub fn empty(count: usize) -> State {
        State { list: Vec::new(), places: vec![None; count] }
    }

    pub fn free_numbers(&self) -> Vec<usize> {
        (0..self.places.len()).filter(|number| self.places[*number].is_none()).collect()
    }

    /// The nodes of the new list's tree whose block had none before, in the order in which they
    /// are allocated: widest shift first, then lowest block.
    fn new_nodes(&self, list: &[Entry]) -> Vec<Node> {
        let before: BTreeSet<Node> = self.places.iter().copied().flatten().collect();
        let mut new: Vec<Node> = nodes(list).difference(&before).copied().collect();
        new.sort_by_key(|node| (Reverse(node.shift), node.block));
        new
    }

    /// How many nodes the change to this list needs.
    pub fn needed(&self, list: &[Entry]) -> usize {
        self.new_nodes(list).len()
    }

    /// The state with the new list; none if it needs more nodes than are free. New nodes go to the
    /// lowest numbers free before; nodes that stay keep their number; the others are freed.
    pub fn change_to(&self, list: Vec<Entry>) -> Option<State> {
        let new = self.new_nodes(&list);
        let free = self.free_numbers();
        if new.len() > free.len() {
            return None;
        }
        let stay = nodes(&list);
        let mut places: Vec<Option<Node>> =
            self.places.iter().map(|place| place.filter(|node| stay.contains(node))).collect();
        for (node, number) in new.into_iter().zip(free) {
            places[number] = Some(node);
        }
        Some(State { list, places })
    }

    /// The number of each node in use.
    pub fn numbers(&self) -> BTreeMap<Node, usize> {
        let places = self.places.iter().enumerate();
        places.filter_map(|(number, place)| place.map(|node| (node, number))).collect()
    }

    /// All words of the pool, by this list and numbering; free nodes are zero.
    pub fn words(&self) -> Vec<u64> {
        let tree = Tree::of(&self.list);
        let numbers = self.numbers();
        let mut words = vec![0; pool_length(self.places.len())];
        words[0] = self.places.len() as u64;
        words[1] = match tree.head {
            Head::Empty => 0,
            Head::Reserved => RESERVED,
            Head::Entry(entry) => entry.word,
            Head::Node(node) => node_word(numbers[&node]),
        };
        words[2] = u64::from(marks_of(&self.list));
        for (node, number) in &numbers {
            let from = node_place(*number);
            write_node(&tree, &numbers, *node, &mut words[from..from + NODE_WORDS]);
        }
        words
    }
}

fn write_node(tree: &Tree, numbers: &BTreeMap<Node, usize>, node: Node, fields: &mut [u64]) {
    fields[SHIFT_FIELD] = u64::from(node.shift) + 1;
    fields[OWNER_FIELD] = owner(tree, numbers, node);
    for slot in 0..SLOTS {
        let marks = tree.slot_marks(node, slot);
        for mark in 0..3 {
            fields[MARK_FIELDS + mark] |= u64::from(marks >> mark & 1) << slot;
        }
        fields[SLOT_FIELDS + slot] = match tree.slot(node, slot) {
            Slot::Empty => 0,
            Slot::Reserved => RESERVED,
            Slot::Entry(entry) => entry.word,
            Slot::Sibling(entry) => sibling_word(node.slot_of(entry.base)),
            Slot::Node(child) => node_word(numbers[&child]),
        };
    }
    fields[COUNT_FIELD] = filled(&fields[SLOT_FIELDS..]);
}

/// How many of a node's slots are not 0.
fn filled(slots: &[u64]) -> u64 {
    slots.iter().filter(|word| **word != 0).count() as u64
}

/// The owner word: 0 in the head, elsewhere 1 + 64 * parent + slot.
fn owner(tree: &Tree, numbers: &BTreeMap<Node, usize>, node: Node) -> u64 {
    match node.parent() {
        Some((parent, slot)) if tree.head != Head::Node(node) => {
            (1 + SLOTS * numbers[&parent] + slot) as u64
        }
        _ => 0,
    }
}
